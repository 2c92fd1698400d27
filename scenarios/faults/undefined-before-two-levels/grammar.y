%left '+' '+' %%
s : t ;