%skip [ ]+
NAME  [a-z]+
