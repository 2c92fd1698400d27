%token A B
%%
s : a-b ; a-b : A ;
