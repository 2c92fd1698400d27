%token A ; B
%%
s : A ;
