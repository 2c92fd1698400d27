%token N IDLE
/* %expect 1 */
%%
e : e '-' e
  | N
  ;
