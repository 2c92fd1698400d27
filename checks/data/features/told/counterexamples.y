/* bison tells: -Wcounterexamples */
%token IF ELSE ID A B
%%
s : IF ID s
  | IF ID s ELSE s
  | ID
  | x A
  | y A
  | y B
  ;
x : B ;
y : B ;
