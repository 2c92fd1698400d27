%%
s : a s 'x'
  | b 'y' c
  ;
a : ;
b : ;
c : p
  | q
  ;
p : 'z' ;
q : 'z' ;
