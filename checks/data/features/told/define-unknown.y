/* bison tells: */
%token A
%define api.nothing {x}
%code nowhere { int x; }
%%
s : A ;
