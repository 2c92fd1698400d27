/* Queries over tables: columns, a filter and an order. */
%token SELECT FROM WHERE ORDER BY LIKE
%token NAME NUMBER TEXT LE GE
%left OR
%left AND
%nonassoc NOT
%%
script     : query ';'
           | script query ';'
           ;
query      : SELECT columns FROM tables filter order
           ;
columns    : '*'
           | list
           ;
list       : column
           | list ',' column
           ;
column     : NAME
           | NAME '.' NAME
           ;
tables     : NAME
           | tables ',' NAME
           ;
filter     : /* nothing */
           | WHERE test
           ;
test       : value comparison value
           | column LIKE TEXT
           | NOT test
           | test AND test
           | test OR test
           | '(' test ')'
           ;
comparison : '='
           | '<'
           | '>'
           | LE
           | GE
           ;
value      : column
           | NUMBER
           | TEXT
           ;
order      : /* nothing */
           | ORDER BY list
           ;
