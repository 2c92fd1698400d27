%%
s : d0 e 'z'
  | d0 f 'z'
  ;
e : 'y' ;
f : 'y' ;
d0 : d1 d1 ;
d1 : d2 d2 ;
d2 : d3 d3 ;
d3 : d4 d4 ;
d4 : d5 d5 ;
d5 : d6 d6 ;
d6 : d7 d7 ;
d7 : d8 d8 ;
d8 : d9 d9 ;
d9 : 'x' 'x' ;
