/* bison tells: */
%define api.token.raw
%token A
%%
s : A 'b' 'c' ;
