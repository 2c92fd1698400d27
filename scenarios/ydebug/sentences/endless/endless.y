%token NUM
%%
s : e t e ;
e : NUM t NUM
  | e
  ;
t : ;
