%left 'c'
%left A
%left B
%%
s : 'x' A y | r A 'z' ;
r : 'x' %prec B ;
y : 'k' | 'k' ;
