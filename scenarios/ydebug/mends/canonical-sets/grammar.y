%%
s : 'a' x 'd' | 'b' x 'e' | 'a' y 'e' | 'b' y 'd' ;
x : 'c' ;
y : 'c' | 'f' ;
