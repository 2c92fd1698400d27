%require "3.8.2"
%require "99.1"
%token A
%%
s : A ;
