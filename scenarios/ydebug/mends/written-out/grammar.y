%token X Y
%%
s : 'p' a 'q' | 'p' b 'q' 'r' ;
a : X | Y ;
b : X ;
