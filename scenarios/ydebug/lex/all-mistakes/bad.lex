%skipp [ \n]+
%skip ([ \n]+
%keywords -i SELECT FORM WHERE ADN
%keywords --upper And
NAME [a-z]*
NUMBER
LE <=
query x
