%%
s : 'a'
%prec
s ;