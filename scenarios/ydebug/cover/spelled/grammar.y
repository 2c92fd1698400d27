%token NAME LE
%%
s : NAME LE NAME ;
