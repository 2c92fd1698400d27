%token A B 256 C
%%
s : A B C ;
