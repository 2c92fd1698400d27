/* Expressions: each way in which precedences, or the want of one, settle a cell. */
%token NUM IF
%nonassoc '<'
%left '+'
%left '*'
%right '^'
%nonassoc LOW
%left HIGH
%%
e   : e '<' e
    | e '+' e
    | e '*' e
    | e '^' e
    | '-' e %prec HIGH
    | e '!'
    | IF e
    | not e
    | NUM
    ;
not : '~'
    ;
