%token NUM IDLE
%left '+'
%left '-'
%right '^'
%nonassoc LOW
%%
e : e '+' e
  | e '-' NUM
  | NUM
  | '(' e ')' %prec LOW
  ;
alone : '!' other ;
other : '?' ;
