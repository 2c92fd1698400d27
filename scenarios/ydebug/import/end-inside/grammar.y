%token END 0
%%
s : END 'x' ;
