# How the tokens of the calculator look. Signs and newlines stand for themselves.
%skip  [ \t\r]+
%skip  #[^\n]*
NUMBER [0-9]+(\.[0-9]+)?([eE][-+]?[0-9]+)?
NAME   [A-Za-z_][A-Za-z_0-9]*
