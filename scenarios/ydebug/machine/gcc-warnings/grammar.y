%token NUM IDLE
%left '+'
%%
e : e '+' e | NUM ;
alone : NUM ;
