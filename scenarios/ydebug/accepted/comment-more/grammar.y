%token N
%%
/* %expect 1 or so */
e : e '-' e
  | N
  ;
