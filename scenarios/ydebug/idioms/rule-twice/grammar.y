%token X Y
%%
s : X | Y s | X ;
