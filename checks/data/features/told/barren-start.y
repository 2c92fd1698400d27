/* bison tells: -Wno-other */
%token A B
%%
s : A s | s t B
  ;
t : A
  ;
