%token X
%%
list : X | list sep X | list sep ;
sep : | ';' ;
