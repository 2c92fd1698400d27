%token 300 A
%%
s : A ;
