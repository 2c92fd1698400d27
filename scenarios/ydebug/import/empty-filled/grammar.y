%token NUM
%%
e : NUM %empty ;
