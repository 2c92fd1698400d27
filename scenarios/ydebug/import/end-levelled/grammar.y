%token END 0
%left END
%%
s : 'x' ;
