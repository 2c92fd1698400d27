%precedence THEN
%precedence ELSE
%precedence NEG
%%
s : 'i' s %prec THEN | 'i' s ELSE s | '-' s %prec NEG | 'x' ;
