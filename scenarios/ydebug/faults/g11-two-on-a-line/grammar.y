%token A
%%
s : A ;
u : A ; t : t A ;
