%token A // a
%left A
%right A
%%
s : A ;
