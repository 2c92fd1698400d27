%token END_OF_FILE 0
%token NUM '+'
%left '+'
%%
s : %empty
  | s e ';'
  ;
e : e '+' e
  | NUM
  ;
