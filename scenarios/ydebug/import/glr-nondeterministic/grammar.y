%nondeterministic-parser
%%
s : 'x' ;
