%token LET TASK ID NUM STR TIME TRUE FALSE NIL
%left OR
%left AND
%nonassoc '<' '>'
%left '+' '-'
%left '*' '/'
%%
item : task | LET ID '=' e ';' ;
task : TASK ID '{' stmt '}' ;
stmt : target '=' e ';' | call ';' ;
target : ID | target '.' ID | target '[' e ']' ;
call : primary '(' ')' | primary '(' e ')' ;
primary : NUM | STR | TIME | TRUE | FALSE | NIL | ID | primary '.' ID | primary '[' e ']' | call ;
e : primary
  | e OR e | e AND e | e '<' e | e '>' e | e '+' e | e '-' e | e '*' e | e '/' e
  ;
