%token IF-NOT
%%
a-rule : IF-NOT | YYerror ;
