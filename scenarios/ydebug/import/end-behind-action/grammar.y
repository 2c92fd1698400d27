%token END 0
%%
s : 'x' { a(); } END ;
