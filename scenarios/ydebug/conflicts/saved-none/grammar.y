%token NUM
%left '+'
%%
e : e '+' e
  | NUM
  ;
