%token A
%%
s : A 'ab'
  ;
