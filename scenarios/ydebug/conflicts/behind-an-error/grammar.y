%token A
%%
s : A
  | error a A
  | error b A
  ;
a : ;
b : ;
