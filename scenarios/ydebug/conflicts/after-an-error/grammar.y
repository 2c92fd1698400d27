%token A B D
%%
s : A D
  | e A c
  | error c
  ;
e : ;
c : x
  | y
  ;
x : B ;
y : B ;
