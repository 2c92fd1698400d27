/* byacc draws: */
%token NUM
%left '+' '-'
%left '*'
%nonassoc '<'
%%
input : | input line ;
line : expr '\n' | error '\n' | { } '!' '\n' ;
expr : expr '+' expr
     | expr '-' expr
     | expr '*' expr
     | expr '<' expr
     | '(' expr ')'
     | '\'' NUM '"' '\\'
     ;
