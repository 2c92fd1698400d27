%left 'x'
%left HI
%%
s : e s
  | 'x' 'y'
  | 'z'
  ;
e : %prec HI ;
