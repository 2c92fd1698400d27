%token A
%%
s : A
  | A	B C
  ;
