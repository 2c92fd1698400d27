%token A 3x
%%
s : A ;
