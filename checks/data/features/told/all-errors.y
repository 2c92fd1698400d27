/* bison tells: -Werror -Wno-error=conflicts-sr */
%code { int x; }
%token IF ELSE X
%%
s : IF s | IF s ELSE s | X ;
t : X ;
