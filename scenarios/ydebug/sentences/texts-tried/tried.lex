%skip /\*[^*]*\*/
%keywords -i a b
NAME [a-d]+
LONG [a-d]{3}z|z{4}
