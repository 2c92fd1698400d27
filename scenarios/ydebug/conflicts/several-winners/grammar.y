%left A
%left B
%left C
%%
s : 'x' A 'q'
  | r A
  | t A
  ;
r : 'x' %prec C ;
t : 'x' %prec B
  | 'z'
  ;
