%token NUM
%right '^'
%%
e : e '^' e
  | NUM
  ;
