%expect 0
%expect-rr 2
%%
s : a | b | 'x' 'y' ;
a : c 'y' ;
b : d 'y' ;
c : 'x' ;
d : 'x' ;
