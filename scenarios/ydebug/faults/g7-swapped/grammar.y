%token A
%%
s : A | erorr A ;
