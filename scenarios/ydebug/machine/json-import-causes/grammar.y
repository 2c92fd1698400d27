%token N
%token MINUS "-"
%%
e : e "-" e
  | N
  ;
