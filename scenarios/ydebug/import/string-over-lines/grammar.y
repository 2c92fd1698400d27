%token A
%%
s : A "one \
two" A
  | A "one \
two" "three"
  | "one two" "three"
  ;
