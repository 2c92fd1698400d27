%token A
%%
l :
  | l A ';'
  | l error ';'
  ;
