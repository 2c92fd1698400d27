%%
s : 'x' nowhere ;
