%%
s : 'x' %merge <both> ;
