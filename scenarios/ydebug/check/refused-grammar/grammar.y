%token A
%%
s : A B ;
