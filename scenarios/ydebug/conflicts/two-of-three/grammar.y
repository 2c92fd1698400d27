%token N A
%left '+'
%left HIGH
%%
s : e
  | f '+'
  | g '+'
  ;
e : N '+' N ;
f : N %prec HIGH ;
g : N | A ;
