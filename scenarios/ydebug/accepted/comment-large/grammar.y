%token N
%%
/* %expect 18446744073709551616 */
e : e '-' e
  | N
  ;
