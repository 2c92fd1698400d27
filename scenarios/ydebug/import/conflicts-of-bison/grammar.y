%expect-rr 2
%left 'c'
%left A C
%left B
%%
s : 'x' A 'q' | 'x' C | r A | t A | r C | t C ;
r : 'x' %prec B ;
t : 'x' %prec 'c' ;
