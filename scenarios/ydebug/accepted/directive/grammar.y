%token N
%expect 1
%%
e: e '-' e
 | N
 ;
