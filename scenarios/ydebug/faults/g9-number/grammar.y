%token A 40000
%%
s : A ;
