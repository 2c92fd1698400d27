%token N
%%
e : e '-' e /* %expect one */
  | N
  ;
