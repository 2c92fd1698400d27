%token N A
%expect 0
%%
s: a | b | b A ;
a: N ;
b: N ;
