%%
s : 'a' /* name: */ ;
