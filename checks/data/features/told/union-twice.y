/* bison tells: */
%define api.value.type {int}
%union { int n; }
%token A
%%
s : A ;
