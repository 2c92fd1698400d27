/* A calculator: assignments and expressions, with the usual precedences. */
%token NUMBER NAME
%right '='
%left '+' '-'
%left '*' '/'
%right NEGATION
%%
input : /* nothing */
      | input line
      ;
line  : '\n'
      | expression '\n'           { print($1); }
      ;
expression : NUMBER
      | NAME                      { $$ = value_of($1); }
      | NAME '=' expression       { $$ = assign($1, $3); }
      | expression '+' expression { $$ = $1 + $3; }
      | expression '-' expression { $$ = $1 - $3; }
      | expression '*' expression { $$ = $1 * $3; }
      | expression '/' expression { $$ = $1 / $3; }
      | '-' expression %prec NEGATION { $$ = -$2; }
      | '(' expression ')'        { $$ = $2; }
      ;
