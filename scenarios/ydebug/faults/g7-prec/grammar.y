%token A
%%
s : A %prec LOW ;
