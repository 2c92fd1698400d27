%token A
%left B
%%
s : A %prec B A ;
