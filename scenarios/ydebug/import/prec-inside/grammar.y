%left '+'
%left NEG
%%
e : %prec NEG '-' e { neg(); } | e '+' e | 'x' %prec NEG { a(); } ;
