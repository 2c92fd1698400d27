%define api.token.raw
%token A
%%
s : A '+' A ;
