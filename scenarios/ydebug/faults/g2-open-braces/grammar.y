%token A
%%
s : A { if (x) {
  ;
