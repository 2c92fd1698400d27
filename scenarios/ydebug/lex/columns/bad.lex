%skip  [ \t\n]+
%keywords -i SELECT FROM WHERE AND
NAME   [A-Za-zäöüßé名前]+
NUMBER [0-9]+
LE     <=
