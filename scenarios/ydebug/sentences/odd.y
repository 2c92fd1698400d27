%token A B C
%start s
%%
s : A x C
  | A y C
  | l ';'
  | error ';'
  ;
x : B ;
y : B ;
l : l B
  | /* nothing */
  ;
u : A ;
