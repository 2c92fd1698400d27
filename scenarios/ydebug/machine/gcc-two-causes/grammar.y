%token A B C
%right B
%%
s : x B C ;
x : A x
  | x C x
  | A
  ;
