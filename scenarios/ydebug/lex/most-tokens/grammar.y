%token X
%%
s : X | s X ;
