/* Statements as in C. An else belongs to the nearest if: a conflict that the shift settles. */
%token IF ELSE WHILE RETURN ID NUM
%%
program    : statement
           | program statement
           ;
statement  : ';'
           | expression ';'
           | RETURN expression ';'
           | IF '(' expression ')' statement
           | IF '(' expression ')' statement ELSE statement
           | WHILE '(' expression ')' statement
           | '{' '}'
           | '{' program '}'
           ;
expression : operand
           | operand '<' operand
           | ID '=' expression
           ;
operand    : ID
           | NUM
           | '(' expression ')'
           ;
