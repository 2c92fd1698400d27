/* bison tells: */
%union { int n; }
%token <n> A
%token B
%type <n> e
%%
s : A { $$ = $3; @5; } e { $$ = $9 + $1; f (@4, @3, $<n>4, $-1, $<n>0); }
  | B { } ;
e : A B { $$ = $1; } B { $$ = $<n>3; }
  | B { $$ = $1; }
  | B B { $$ = $<n>$ + $99999999999; }
  ;
