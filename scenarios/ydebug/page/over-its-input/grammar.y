%token A
%%
list : A | list A ;
