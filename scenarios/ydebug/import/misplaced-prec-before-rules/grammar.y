%prec A
%%
s : 'x' ;
