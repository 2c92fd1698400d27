/* bison tells: */
%token A B C
%%
s : A[one] { f ($two, @none, $one); } B[two] A[tri] { $A; $tri.x; $[tri]; $[tri.x]; $s; }
  | s.x A.b { $A.b; $[A.b]; $A; @A.b; $s.x; $[s.x]; }
  | e e C { $e; $s; @e; }
  ;
s.x : C[t] B[t-u] { $t-u; $t; $[t-u]; @t-u; $t.v; } ;
A.b : A B B { $A.b; $[A.b]; $A; } ;
e[left] : C C { $left; $e; @$; $$; } ;
