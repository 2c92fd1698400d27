%%
s : 'a'
%left ;
