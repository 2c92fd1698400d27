/* Sums, one a line. A line that is wrong is passed over. `ydebug rules` knows rules by the names
   that comments give. */
%token NUMBER
%left '+' '-'
%left '*' '/'
%right SIGN
%%
input : /* nothing */
      | input line
      ;
line  : '\n'
      | sum '\n'            { print($1); }     /* name: print */
      | error '\n'
      ;
sum   : NUMBER
      | sum '+' sum         { $$ = $1 + $3; }  /* name: add */
      | sum '-' sum         { $$ = $1 - $3; }  /* name: subtract */
      | sum '*' sum         { $$ = $1 * $3; }  /* name: multiply */
      | sum '/' sum         { $$ = $1 / $3; }  /* name: divide */
      | '-' sum %prec SIGN  { $$ = -$2; }      /* name: negate */
      | '(' sum ')'         { $$ = $2; }       /* name: group */
      ;
