%%
list : 'x' list
     | 'x'
     ;
