%token N T
%left T
%left HIGH
%%
s : 'a' x1 | 'b' x2 ;
x1 : e | f T | g T ;
x2 : f T | g T ;
e : N T N ;
f : N %prec HIGH ;
g : N ;
