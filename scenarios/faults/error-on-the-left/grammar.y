%%
s : ;
error : ;