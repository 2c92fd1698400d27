%no-default-prec
%%
s : 'x' ;
