%token A B
%%
s : A { it$more = 1; } ;
