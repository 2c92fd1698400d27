%%
s : p 'd'
  | q 'e'
  ;
p : 'c' ;
q : 'c' ;
