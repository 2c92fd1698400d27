%require "3.0"
%expect 0
%expect-rr 1
%token A
%%
all : one | two ;
one : A ;
two : A ;
