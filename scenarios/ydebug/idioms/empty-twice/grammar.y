%token X Y
%%
s : o X ;
o : | p ;
p : | Y ;
