%token A
%%
s : A /* never closed
  ;
