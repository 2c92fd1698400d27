%tokens A
%%
s : A ;
