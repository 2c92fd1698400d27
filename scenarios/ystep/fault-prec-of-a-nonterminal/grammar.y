%%
s : 'a' %prec
s ;