%define lr.type canonical-lr
%%
s : 'x' ;
