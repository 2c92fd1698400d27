%token NUM '<' UNUSED
%nonassoc '<'
%left '+'
%%
s : e | s ';' e ;
e : e '+' e
  | e '<' e
  | NUM e
  | NUM
  | NUM
  ;
lost : lost NUM ;
