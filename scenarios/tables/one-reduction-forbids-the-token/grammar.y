%nonassoc '+'
%%
s : p '+'
  | q '+'
  | 'n' '+'
  ;
p : 'n' %prec '+' ;
q : 'n' ;
