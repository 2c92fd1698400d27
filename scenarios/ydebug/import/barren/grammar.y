%token A B
%type <x> dead
%%
s : dead B { first(); }
  | A { second(); }
  | A dead // a
  ;
dead : dead A
     | { third(); } dead ;
t : dead | B ;
