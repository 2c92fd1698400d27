/* byacc tells: */
%token IF ELSE X
%%
s : IF s | IF s ELSE s | X | a | b ;
a : X ;
b : X ;
