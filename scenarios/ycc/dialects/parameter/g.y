%{
#define XY 1
%}
%lex-param { void *X }
%token A B
%%
s : A ;
