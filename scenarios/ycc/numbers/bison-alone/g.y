%token A B C
%%
s : A B C ;
