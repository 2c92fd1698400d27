%token A
%%
s : A b ;
