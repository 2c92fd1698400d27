%token END 0
%%
s : line ;
line : 'x' END ;
