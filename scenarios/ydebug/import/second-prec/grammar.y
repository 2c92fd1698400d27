%left A B
%%
s : 'x' %prec A %prec B ;
