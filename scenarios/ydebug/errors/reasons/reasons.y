%token A B C
%%
s : a B
  | A C C
  | error B
  ;
a : A
  ;
