%token N
%%
/* %expect-rr 0 */
e : e '-' e
  | N
  ;
