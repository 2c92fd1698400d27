# How the tokens of settings look. Signs stand for themselves.
%skip  [ \t\r\n]+
%skip  #[^\n]*
NAME   [A-Za-z_][-A-Za-z_0-9]*
NUMBER -?[0-9]+(\.[0-9]+)?
TEXT   "([^"\\\n]|\\.)*"
