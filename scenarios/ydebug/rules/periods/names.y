%%
s   : a.b a_b ;
a.b : 'a' ;
a_b : 'b' ;
