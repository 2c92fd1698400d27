%token A
%%
s : A 1 ;
