%% t : %prec t ;
s : s 'a' ;