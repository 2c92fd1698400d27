%%
s : t ;
t : u ;
u : t ;