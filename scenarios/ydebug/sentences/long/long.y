%%
s : 'x' | 'y' a ;
a : b b b ;
b : c c c ;
c : d d d ;
d : e e e ;
e : f f f ;
f : g g g ;
g : h h h ;
h : 'x' 'x' 'x' ;
