%glr-parser
%%
s : 'x' ;
