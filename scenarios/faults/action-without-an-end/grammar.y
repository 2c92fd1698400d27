%%
s :
{ open

