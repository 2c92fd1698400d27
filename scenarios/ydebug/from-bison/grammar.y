%require "3.0"
%expect 1
%token NUM "number" LE "<="
%precedence NOT
%%
e : e "<=" e
  | NOT e
  | "number"[n] { $$ = $n; }
  ;
