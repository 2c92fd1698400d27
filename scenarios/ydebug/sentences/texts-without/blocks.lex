%skip [ ]+
NAME  [a-z]+
WORD  [a-z][a-z]*
%none INDENT
