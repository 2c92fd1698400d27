%token X Y
%%
a : b | X ;
b : a | Y ;
