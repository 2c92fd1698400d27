%token NUM
%%
e : e op e | NUM ;
op : '+' | '*' ;
