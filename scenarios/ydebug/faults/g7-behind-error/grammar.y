%token A
%%
s : error X ;
