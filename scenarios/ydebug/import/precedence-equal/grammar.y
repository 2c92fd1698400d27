%left '*'
%precedence '+'
%%
e : e '+' e | e '*' e | 'x' ;
