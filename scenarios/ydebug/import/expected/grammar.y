%expect 1
%expect-rr 1
%%
s : a | b | 'x' 'y' ;
a : c 'y' ;
b : d 'y' ;
c : 'x' ;
d : 'x' ;
