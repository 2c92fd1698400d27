%token N
%%
e : e '-' e
  | N
  ;
