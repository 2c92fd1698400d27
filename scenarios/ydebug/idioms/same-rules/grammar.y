%token NUM
%%
s : '(' args ')' | '[' params ']' | '{' args '}' | '{' params '}' ;
args : NUM | args ',' NUM ;
params : NUM | params ',' NUM ;
