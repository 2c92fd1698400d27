%token NUM LE
%%
list : %empty | list line ;
line : { } NUM ';' | NUM LE NUM ;
