/* bison tells: -Wcounterexamples -Wall */
%token NUM
%expect 1
%%
e : e '+' e
  | NUM
  ;
