%token N
%%
e /* %expect 1 */ : e '-' e
  | N
  ;
