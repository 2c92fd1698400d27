%token IF
%%
s : If ;
