%pure-parser
%locations
%token A B
%%
s : A { @$ = @1; } ;
