%%
s : 'a'
%prec

u ;