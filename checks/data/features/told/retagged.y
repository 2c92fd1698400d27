/* bison tells: -Wno-other */
%union { int i; char *s; }
%token <i> NUM
%type <i> start term
%type <s> term
%left <i> NUM
%%
start : term NUM ;
term : NUM ;
