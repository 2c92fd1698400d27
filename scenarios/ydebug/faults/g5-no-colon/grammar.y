%token A
%%
s A ;
