%token N
%%
s : error e ;
e : e '-' e | N ;
