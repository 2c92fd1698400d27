%%
/* name: the start of all */
s : 'a' ;
