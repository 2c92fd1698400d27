/* byacc tells: */
%token IF ELSE X
%union { int i; }
%type <i> s
%%
s : IF s | IF s ELSE s | X { } | t ;
t : X X { } ;
