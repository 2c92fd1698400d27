%token IF ELSE X
%%
start : s
      | '(' q ')'
      ;
q : s
  | IF s '!'
  | s ELSE '?'
  ;
s : X
  | IF s
  | IF s ELSE s
  ;
