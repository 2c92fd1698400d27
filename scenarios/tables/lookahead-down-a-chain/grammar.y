%%
s : 'p' a 'q' ;
a : 'r' b ;
b : 't' c ;
c : 'y' ;
