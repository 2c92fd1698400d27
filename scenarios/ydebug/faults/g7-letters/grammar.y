%token A
%%
s : A { é("é"); } X ;
