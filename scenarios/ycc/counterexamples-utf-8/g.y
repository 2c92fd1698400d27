%token IF ELSE ID
%%
s : IF ID s
  | IF ID s ELSE s
  | ID
  ;
