%union { int n; }
%token <n> A
%%
s : { $$ = 1; } A { } ;
