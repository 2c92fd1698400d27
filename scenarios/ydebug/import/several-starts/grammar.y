%start s t
%%
s : 'x' ; t : 'y' ;
