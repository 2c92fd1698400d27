%token A B
%%
s : x B
  | y B
  | A B A
  ;
x : A ;
y : A ;
