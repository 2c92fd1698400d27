%token A
%%
s : A ;
t : t A ;
