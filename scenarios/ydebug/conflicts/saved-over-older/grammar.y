%token A B
%%
s : A B
  | e A c
  ;
e : ;
c : x
  | y
  ;
x : B ;
y : B ;
