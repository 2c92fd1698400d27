%token N
%%
e : e '-' e
  | N
  ;
%%
/* %expect 1 */
