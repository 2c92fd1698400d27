%%
s : 'b' p 'y'
  | 'a' p 'x'
  ;
p : '(' p ')'
  | q
  | r
  ;
q : 'c' ;
r : 'c' 'x' ;
