%token LOW
%left 'c'
%left A
%left B
%%
s : 'x' A 'q' | r A | t A ;
r : 'x' %prec B ; t : 'x' %prec 'c' ;
