%token s %%
u : t ;
s : ;