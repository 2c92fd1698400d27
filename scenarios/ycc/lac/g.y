%define parse.lac full
%token A
%%
s : A { $$ = $3; } ;
