%token A
%left A '+'
%right '*' '+'
%%
s : A ;
