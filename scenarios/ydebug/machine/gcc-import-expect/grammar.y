%token N  %expect 3
%%
e: e '-' e
 | N
 ;
