%token A B D E F
%%
s : A B
  | e A d c
  ;
e : ;
d : D
  | E
  | F
  ;
c : x
  | y
  ;
x : B ;
y : B ;
