%skip [ \n]+
NUM [0-9]+
LE <=
%keywords -i NOT
