%token A B
%%
list : | list A | list B ;
