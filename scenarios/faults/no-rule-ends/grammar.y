%start t
%%
s : ;
t : s t ;
t : 'x' t ;