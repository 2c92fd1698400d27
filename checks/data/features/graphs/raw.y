/* bison draws: -Dapi.token.raw -Wnone */
%union { int number; }
%token <number> NUM "number" LE "<=" ID 400
%token END 0 "end of input" YYUNDEF
%type <number> expr
%nonassoc LE
%%
input : expr | error END2 ;
expr : expr LE expr | NUM | ID ;
%token END2;
