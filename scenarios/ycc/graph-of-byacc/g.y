%token IF ID ELSE
%%
s : IF ID s
  | IF ID s ELSE s
  | ID '\n'
  | error
  ;
