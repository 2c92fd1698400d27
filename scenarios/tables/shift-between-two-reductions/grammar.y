%left LO
%left '+'
%left HI
%%
s : p '+'
  | q '+'
  | 'n' '+'
  ;
p : 'n' %prec HI ;
q : 'n' %prec LO ;
