%token N
%%
/* %expect 7 */
e : e '-' e
  | N
  ;
