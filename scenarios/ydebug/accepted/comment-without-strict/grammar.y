%token N
%%
/* %expect one */
e : e '-' e
  | N
  ;
