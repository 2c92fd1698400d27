# How the tokens of grammar.y look: a name, blanks, a regular expression.
# These stand for themselves: '*' ',' ';'
%skip [ \t\r\n]+
%keywords -i SELECT FROM WHERE AND
NAME  [A-Za-z_][A-Za-z_0-9]*
NUMBER  [0-9]+(\.[0-9]+)?
LE  <=
