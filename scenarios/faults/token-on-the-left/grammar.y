%token s
%%
s : 'a' ;