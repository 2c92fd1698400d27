/* A language of 84 rules with three mistakes: '*', '/' and '.' stand on no line of precedence, ELSE
   can go to two IFs, and a name is an expression in two ways. */
%token NAME NUMBER STRING IF ELSE WHILE FOR RETURN BREAK CONTINUE FUNCTION VAR CONST TYPE RECORD END
%token LE GE EQ NE AND OR NOT PRINT IMPORT FROM TRUE FALSE NIL
%right '='
%left OR
%left AND
%nonassoc EQ NE
%nonassoc '<' '>' LE GE
%left '+' '-'
%start program
%%
program : units ;
units : | units unit ;
unit : import | function | constant | type | statement ;
import : IMPORT NAME ';' | FROM NAME IMPORT names ';' ;
names : NAME | names ',' NAME ;
function : FUNCTION NAME '(' parameters_or_none ')' result block ;
parameters_or_none : | parameters ;
parameters : parameter | parameters ',' parameter ;
parameter : NAME ':' type_name ;
result : | ':' type_name ;
type_name : TYPE NAME | '[' type_name ']' | RECORD NAME ;
constant : CONST NAME '=' expression ';' ;
type : RECORD NAME '{' fields '}' ;
fields : | fields field ;
field : NAME ':' type_name ';' ;
block : '{' statements '}' ;
statements : | statements statement ;
statement : block | variable | assignment | conditional | loop | jump | print | call_statement ;
variable : VAR NAME ':' type_name ';' | VAR NAME '=' expression ';' ;
assignment : place '=' expression ';' ;
place : NAME | place '[' expression ']' | place '#' NAME ;
conditional : IF '(' expression ')' statement | IF '(' expression ')' statement ELSE statement ;
loop : WHILE '(' expression ')' block | FOR NAME FROM expression block ;
jump : RETURN ';' | RETURN expression ';' | BREAK ';' | CONTINUE ';' ;
print : PRINT arguments ';' ;
call_statement : '@' call ';' ;
call : NAME '(' arguments_or_none ')' ;
arguments_or_none : | arguments ;
arguments : expression | arguments ',' expression ;
expression : expression '+' expression
	| expression '-' expression
	| expression '*' expression
	| expression '/' expression
	| expression '.' expression
	| expression AND expression
	| expression OR expression
	| expression EQ expression
	| expression NE expression
	| expression '<' expression
	| expression '>' expression
	| expression LE expression
	| expression GE expression
	| NOT primary
	| primary
	| NAME ;
primary : NUMBER | STRING | TRUE | FALSE | NIL | NAME | '@' call | '(' expression ')' ;
