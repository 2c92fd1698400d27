%token A B
%%
s : A[one] { f ($two, $none); } B[two] A[tri] { $A; $tri.x; } ;
s : s A.b { $A.b; $[A.b]; } | s s { $s; } ;
A.b : A ;
