%token A
%%
s : A ;
error : A ;
