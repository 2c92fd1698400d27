/* Sums and products of numbers. */
%token NUM
%left '+'
%left '*'
%%
e : e '+' e { $$ = $1 + $3; }
  | e '*' e { $$ = $1 * $3; }
  | NUM
  ;
