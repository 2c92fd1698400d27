%%
e : e '+' e | NUM ;
%token NUM IDLE ;
%left '+' ;
