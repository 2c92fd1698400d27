%token N IDLE
%%
e : e '-' e
  | N
  ;
