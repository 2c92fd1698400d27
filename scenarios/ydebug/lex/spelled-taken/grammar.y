%token A B LONG OPEN DASH
%%
s    : A item ;
item : A | B | LONG | OPEN | DASH | '(' ;
