%token CALL DECLARE NAME NUM
%%
s : CALL '(' args ')' | DECLARE '(' names ')' | CALL '(' names ')' ;
args : arg | args ',' arg ;
arg : NAME | NUM ;
names : NAME | names ',' NAME ;
