%token N
%%
e : N '-' e
  | e '-' N
  | N
  ;
