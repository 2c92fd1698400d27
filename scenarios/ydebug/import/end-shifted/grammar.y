%token END 0
%token D
%%
s : D | D END ;
