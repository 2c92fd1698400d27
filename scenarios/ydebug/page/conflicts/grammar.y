%token A
%%
s : s s
  | A
  ;
