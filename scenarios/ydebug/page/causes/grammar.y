%token N
%%
e : e '+' e
  | e '*' e
  | N
  ;
