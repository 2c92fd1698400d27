%define lr.type ielr
%token N
%%
e: e '-' e
 | N
 ;
