/* bison tells: -Wprecedence */
/* By the manual, "Useless precedence": nothing of "=" is needed, no direction of "*", and no level
   of "(". */
%nonassoc "="
%left "+"
%left "*"
%precedence "("
%%
stmt: exp | "var" "=" exp ;
exp: exp "+" exp | exp "*" "num" | "(" exp ")" | "num" ;
