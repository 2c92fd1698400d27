/* bison tells: -Wnone -Wcounterexamples -Werror=counterexamples */
%token NUM
%left '*'
%%
e : e '+' e
  | e '*' e
  | NUM
  ;
