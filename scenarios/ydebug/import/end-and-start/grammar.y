%token END 0
%%
s : 'x' | s END ;
