%token A "a"
%%
s : A ;
