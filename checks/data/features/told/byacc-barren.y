/* byacc tells: */
%token A B
%%
s : A | dead B
  ;
dead : dead A
  ;
