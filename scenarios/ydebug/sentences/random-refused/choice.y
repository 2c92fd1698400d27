%token A B
%%
s : x 'c'
  | y 'c' 'd'
  ;
x : A B ;
y : A B ;
