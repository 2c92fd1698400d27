%token SELECT FROM WHERE AND
%token NAME NUMBER LE
%left AND
%%
script  : query ';'
        | script query ';'
        ;
query   : SELECT columns FROM NAME filter
        ;
columns : '*'
        | names
        ;
names   : NAME
        | names ',' NAME
        ;
filter  : /* nothing */
        | WHERE test
        ;
test    : NAME LE NUMBER
        | test AND test
        ;
