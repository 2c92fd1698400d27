# How the tokens of queries look. Commas, dots and other signs stand for themselves.
%skip  [ \t\r\n]+
%skip  --[^\n]*
%keywords -i SELECT FROM WHERE ORDER BY LIKE OR AND NOT
NAME   [A-Za-z_][A-Za-z_0-9]*
NUMBER [0-9]+(\.[0-9]+)?
TEXT   '([^'\n]|'')*'
LE     <=
GE     >=
