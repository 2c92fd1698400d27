%verbose 3
%%
s : 'x' ;
