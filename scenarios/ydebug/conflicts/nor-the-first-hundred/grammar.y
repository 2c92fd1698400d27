%token A B D
%%
s : A B
  | e A d c
  ;
e : ;
d : D
  | d D
  ;
c : x
  | y
  ;
x : B ;
y : B ;
