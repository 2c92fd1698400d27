%token X
%%
s : a '+' | X n '+' | X '+' ;
a : X ;
n : ;
