# How the tokens of queries look.
%skip  [ \t\n]+
%skip  --[^\n]*
%keywords -i SELECT FROM WHERE AND
NAME   [A-Za-z_][A-Za-z_0-9]*
NUMBER [0-9]+(\.[0-9]+)?
STRING '([^'\n]|'')*'
LE     <=
