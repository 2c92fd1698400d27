%token N
%%
e: e '-' M ;
