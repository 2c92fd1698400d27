%token A 40000 B C
%%
s : A B C ;
