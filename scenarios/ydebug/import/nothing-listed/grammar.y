%token
%%
s : 'x' ;
