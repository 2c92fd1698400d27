%%
s : 'x' %prec ;
