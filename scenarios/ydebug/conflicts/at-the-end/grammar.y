%token A
%%
s : s
  | A
  ;
