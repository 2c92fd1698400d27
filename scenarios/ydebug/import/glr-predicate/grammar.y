%%
s : %?{ new } 'x' ;
