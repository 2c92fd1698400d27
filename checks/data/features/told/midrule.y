/* bison tells: -Wall */
%union { int i; }
%token <i> NUM
%type <i> sum
%destructor { } <i>
%%
all : sum { (void) $1; } ;
sum : NUM <i>{ $$ = 1; } NUM { $$ = $1; }
    | NUM { $<i>$ = $1; } sum { $$ = 2; (void) $3; }
    | sum <i>{ (void) $1; } NUM NUM { $$ = $2 + $3; }
    | sum sum { (void) @2; } NUM { $$ = 1; }
    ;
