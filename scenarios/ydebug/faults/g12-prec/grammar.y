%token A
%%
s : A %prec t ;
t : A ;
