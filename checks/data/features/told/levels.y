/* bison tells: -Wprecedence -Wno-other */
%token X Y '?'
%left '+' '-'
%left '*'
%nonassoc NEVER
%right '^'
%nonassoc '<'
%precedence MINUS
%precedence ONLY
%precedence POST
%%
start : e ;
e : e '+' e | e '-' e | e '*' e | X | '-' e %prec MINUS | e '?' e %prec '^' | Y e %prec ONLY
  | e '<' e | e POST ;
