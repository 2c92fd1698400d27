%token NAME LE "at most" GE
%%
test : NAME LE NAME | NAME GE NAME ;
