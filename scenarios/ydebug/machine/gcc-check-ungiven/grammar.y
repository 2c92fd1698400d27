%token N M
%%
e : e '-' e
  | N M
  ;
