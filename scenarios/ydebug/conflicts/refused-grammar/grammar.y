%token NUM
%%
e : NUM
  | e PLUS NUM
  ;
