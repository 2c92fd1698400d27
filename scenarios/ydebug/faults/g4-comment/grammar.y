%token A
%%
s : A ; // done
