%skip [ \n]+
NUM [0-9]+
%keywords -i NOT
