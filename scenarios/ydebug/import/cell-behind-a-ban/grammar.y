%nonassoc A
%left B
%%
s : 'x' A 'q' | r A | t A ;
r : 'x' %prec A ;
t : 'x' %prec B ;
