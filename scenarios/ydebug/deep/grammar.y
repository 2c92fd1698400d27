%%
list : list 'x'
     | 'x'
     ;
