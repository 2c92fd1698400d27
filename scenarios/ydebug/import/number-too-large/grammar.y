%token A 2147483647
%%
s : A ;
