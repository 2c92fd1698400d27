%token A B
%%
s : A { @$ = @1; } ;
