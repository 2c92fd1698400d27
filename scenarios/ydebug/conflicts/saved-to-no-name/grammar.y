%%
s : e ;
e : e '+' e | 'x' ;
