%token END 0
%%
s : 'x' %prec END ;
