%%
s : %prec 'a'
| t %prec t ;
t : ;