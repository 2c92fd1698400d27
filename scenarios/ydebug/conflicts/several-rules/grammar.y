%token A G
%%
s : 'x' A 'q'
  | r A
  | t A
  ;
r : 'x' %prec G ;
t : 'x' %prec A ;
