%token A YYUNDEF B C
%%
s : A B C ;
