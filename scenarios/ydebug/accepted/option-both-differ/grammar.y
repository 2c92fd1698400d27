%token N A
%%
s : a | b | b A ;
a : N ;
b : N ;
