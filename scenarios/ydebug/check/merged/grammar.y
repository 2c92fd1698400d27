%%
s : 'a' x 'd'
  | 'b' x 'e'
  ;
x : 'c'
  | 'c' 'f'
  ;
