%%
s : 'a'
;
t : t ;