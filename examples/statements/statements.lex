# How the tokens of statements look. Signs stand for themselves.
%skip  [ \t\r\n]+
%skip  /\*([^*]|\*+[^*/])*\*+/
%keywords -i IF ELSE WHILE RETURN
ID     [A-Za-z_][A-Za-z_0-9]*
NUM    [0-9]+
