%skip [ \n]+
%skip (?-u)#[^\n]*
NUM [0-9]+
