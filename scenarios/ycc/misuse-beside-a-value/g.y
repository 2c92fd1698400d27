%token A
%%
s : A { $$ = $3; } ;
