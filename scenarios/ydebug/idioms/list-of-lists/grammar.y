%token X Y
%%
s : s s | X | Y ;
