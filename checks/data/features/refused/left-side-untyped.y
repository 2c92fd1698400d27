/* the peer refuses it too */
%define api.pure full
%union { int number; }
%token <number> A
%type <number> one
%%
/* refused below: $$ */
all : one one { $$ = $1; }
    ;
one : A ;
