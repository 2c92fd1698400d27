/* bison draws: -Wnone */
%union { int number; struct pair *pair; }
%token <number> NUM "number" LE "<=" '&' ID 400
%token END 0 "end of input"
%type <pair> list
%type <number> expr
%nonassoc LE
%left '&' '<'
%%
input : list | input '\n' list | error '\n' ;
list : %empty { $$ = 0; } | list expr ';' ;
expr : expr LE expr | expr '&' expr | expr '<' expr | NUM | IF expr THEN expr | IF expr THEN expr ELSE expr
     | ID { $<number>$ = 1; } '(' list ')' | two | three ;
two : ID ; three : ID ;
%token IF THEN ELSE;
