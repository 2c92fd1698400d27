/* bison draws: */
%token NUM "number" LE "<=" END 0 "end of input"
%left '+'
%left '*'
%nonassoc LE
%right '^'
%%
input : %empty | input line ;
line : expr '\n' | error '\n' | { } '!' '\n' ;
expr : expr '+' expr
     | expr '*' expr
     | expr LE expr
     | expr '^' expr
     | '(' expr ')'
     | '(' error ')'
     | list "number"
     ;
list : list "number" ',' | %empty ;
