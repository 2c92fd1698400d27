# How tokens look, for ydebug; scan.c says the same in C. Signs stand for themselves.
%skip  [ \t\r\n]+
%skip  #[^\n]*
PRINT  print
NAME   [A-Za-z_][A-Za-z_0-9]*
NUMBER [0-9]+(\.[0-9]+)?
