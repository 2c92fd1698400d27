%token SELECT FROM WHERE AND
%token NAME NUMBER STRING LE
%left AND
%%
query  : SELECT names FROM NAME filter ';' ;
names  : NAME
       | names ',' NAME
       ;
filter : /* nothing */
       | WHERE test
       ;
test   : NAME LE value
       | test AND test
       ;
value  : NUMBER
       | STRING
       ;
