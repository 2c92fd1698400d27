%token N
%%
/* %expected: one conflict */ /* %expect 1 */
e : e '-' e
  | N
  ;
