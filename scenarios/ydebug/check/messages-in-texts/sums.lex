%skip [ \n]+
NUM [0-9]+
