%token A
%start A
%%
s : A ;
