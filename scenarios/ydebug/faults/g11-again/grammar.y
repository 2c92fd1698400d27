%token A
%%
s : A ;
t : t A ;
u : A t ;
t : u A ;
u : u ;
