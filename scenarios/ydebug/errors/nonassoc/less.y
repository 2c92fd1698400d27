%token NUM
%nonassoc '<'
%%
e : e '<' e
  | NUM
  ;
