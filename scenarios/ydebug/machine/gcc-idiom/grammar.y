%token X
%%
a : a | X ;
