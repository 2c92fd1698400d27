%token A G
%left H
%%
s : 'x' A 'q'
  | r A
  | t A
  ;
r : 'x' %prec A ;
t : 'x' %prec H ;
