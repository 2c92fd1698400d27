%token A
%glr-parser
%%
s : A ;
