%%
list : item | list ';' item ;
item : target '=' sum | sum ;
target : '*' target | 'v' ;
sum : sum '+' value | value ;
value : target | 'n' | '(' sum ')' ;
