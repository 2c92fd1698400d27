%token A
/* %%
s : A ;
