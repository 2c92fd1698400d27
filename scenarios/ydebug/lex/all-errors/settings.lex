%skip [ \n]+
NAME [a-z]+
NUM [0-9]+
