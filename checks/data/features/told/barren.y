/* bison tells: -Wall */
%token A B
%nterm bare
%type <x> dead
%union { int x; }
%%
s : dead B { $1 = 1; }
  | A
  | gone { } { } B
  | bare
  | A { } A
  ;
dead : dead A
     | A dead { $<x>$ = 1; } B { $$ = $<x>3; }
     ;
lone : A { } A ;
gone : { } gone ;
solo : gone | lone ;
solo : dead ;
s : gone ;
%printer { } dead gone;
