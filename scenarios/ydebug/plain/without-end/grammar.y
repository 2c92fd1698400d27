%left 'x' %left HI %% s : e s | 'x' ; e : %prec HI ;
