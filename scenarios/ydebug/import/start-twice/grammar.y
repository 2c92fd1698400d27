%start s
%start t
%%
s : 'x' ; t : 'y' ;
