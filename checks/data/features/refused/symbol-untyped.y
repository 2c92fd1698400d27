/* the peer refuses it too */
%define api.pure full
%union { int number; }
%token <number> A
%type <number> all
%%
all : one A
      {
        /* refused below: $1 */
        $$ = $1;
      }
    ;
one : A { } ;
