%token N
%%
s : a
  | b 'x' 'y'
  ;
a : N 'x' ;
b : N ;
