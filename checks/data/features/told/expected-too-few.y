/* bison tells: */
%code { int x; }
%expect 1
%token X
%%
s : X ;
