%%
s          : { } 'a' s_1_action ;
s_1_action : 'b' ;
