/* bison tells: */
%token A B
%destructor { f ($$, $1, @$, @1, $a, "$2"); } A
%printer { $<n>1 } B
%initial-action { @1; $x; $$; }
%%
s : A { g ($, @, $<, $<n, $1, "$", '@'); /* $ */ } ;
