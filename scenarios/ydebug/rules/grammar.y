/* name: sums */
%token NUMBER NAME
%left '+' '-'
%left '*'
%%
/* Sums of numbers, one a line. */
lines  : /* nothing */
       | lines line '\n'
       ;
line   : sum                      { print($1); }    /* name: print */
       | NAME '=' { open(); } sum { close($4); }    /* name: assign */
       | error
       ;
sum    : NUMBER
       /* name: add */
       | sum '+' sum              { $$ = $1 + $3; }
       | sum '-' sum              /* name: subtract */
                                  { $$ = $1 - $3; }
       | sum '*' sum
         /* name: multiply */
       ;
