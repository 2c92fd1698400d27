/* bison tells: -Wyacc -Wno-deprecated */
%defines
%debug
%locations
%token-table
%code top { }
%token a-b 0x101 C "c"
%token <i> D
%precedence LOW
%nterm <i> t
%type <i> DE
%token DE
%union { int i; }
%parse-param { int x }
%expect 0
%%
s : a-b "c" | D t DE { } | C <i>{ $$ = 1; } C { (void) $2; } %prec LOW ;
t : %empty { $$ = 0; } ;
