%%
s : 'x' %dprec 1 ;
