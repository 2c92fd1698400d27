%skip  [ \t\n]+
%skip  --[^\n]*
%keywords -i SELECT FROM WHERE AND ';'
NAME   [A-Za-z_][A-Za-z_0-9]*
NUMBER [0-9]+
LE     <=
','    and\x20also
%none  '*'
