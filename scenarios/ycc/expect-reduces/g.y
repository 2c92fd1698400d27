%require "3.0"
%expect 0
%expect-rr 1
%token A
%%
s : a | b ;
a : A ;
b : A ;
