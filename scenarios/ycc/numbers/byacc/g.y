%token A B 300 C
%%
s : A B C ;
