%%
s : lower ';'
  | upper ';'
  ;
lower : 'x' ;
upper : 'x' | 'y' ;
