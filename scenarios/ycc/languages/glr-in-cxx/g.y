%language "c++"
%glr-parser
%token A
%%
s : A ;
