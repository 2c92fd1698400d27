%%
s : 'a' x 'd' | 'b' y 'd' | 'b' z 'd' | 'a' y 'e' | 'a' z 'f' | 'b' x 'g' ;
x : 'c' ;
y : 'c' ;
z : 'c' ;
