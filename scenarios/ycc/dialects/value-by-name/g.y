%token A B
%%
s : A { $$ = $A; } ;
