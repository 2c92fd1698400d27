# Keywords by the names of their tokens.
%skip  [ \t\n]+
%keywords --upper select from where
%keywords --upper and
NAME   [A-Za-z_][A-Za-z_0-9]*
NUMBER [0-9]+
LE     <=
