/* the peer refuses it too */
%define api.pure full
%union { int number; }
%token <number> A
%%
/* refused below: $$ */
all : A { $$ = $1; } A
      { }
    ;
