%skeleton "glr.cc"
%%
s : 'x' ;
