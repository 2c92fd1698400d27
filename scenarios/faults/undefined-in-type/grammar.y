%type <t>
t %%
s :
u ;