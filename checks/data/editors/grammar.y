%token <number> NUMBER
%type <number> sum value
%token SPARE
%left '+'
%%
sum: sum '+' value { $$ = $1 + $3; }
   | value
   ;
value: NUMBER
     | '(' sum ')' { $$ = $2; }
     | value '-' value
     ;
