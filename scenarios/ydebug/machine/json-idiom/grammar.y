%token X
%%
list : | list item ;
item : | X ';' ;
