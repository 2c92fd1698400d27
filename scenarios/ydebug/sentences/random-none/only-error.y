%%
s : error ';' ;
