%language "c++"
%define api.token.constructor
%token A
%%
s : A ;
