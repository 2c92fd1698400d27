/* C as the standard of 1989 has it, with a token for names of types. It has one conflict, at ELSE. */
%token NAME TYPE NUMBER TEXT SIZEOF
%token ARROW UP DOWN SHL SHR LE GE EQ NE AND OR
%token SET_MUL SET_DIV SET_MOD SET_ADD SET_SUB SET_SHL SET_SHR SET_AND SET_XOR SET_OR
%token TYPEDEF EXTERN STATIC AUTO REGISTER
%token CHAR SHORT INT LONG SIGNED UNSIGNED FLOAT DOUBLE CONST VOLATILE VOID
%token STRUCT UNION ENUM DOTS
%token CASE DEFAULT IF ELSE SWITCH WHILE DO FOR GOTO CONTINUE BREAK RETURN

%start unit

%%

primary : NAME | NUMBER | texts | '(' expression ')' ;

texts : TEXT | texts TEXT ;

postfix : primary
        | postfix '[' expression ']'
        | postfix '(' ')'
        | postfix '(' arguments ')'
        | postfix '.' NAME
        | postfix ARROW NAME
        | postfix UP
        | postfix DOWN
        ;

arguments : assignment | arguments ',' assignment ;

unary : postfix
      | UP unary
      | DOWN unary
      | unary_sign cast
      | SIZEOF unary
      | SIZEOF '(' type_name ')'
      ;

unary_sign : '&' | '*' | '+' | '-' | '~' | '!' ;

cast : unary | '(' type_name ')' cast ;

product : cast | product '*' cast | product '/' cast | product '%' cast ;

sum : product | sum '+' product | sum '-' product ;

shift : sum | shift SHL sum | shift SHR sum ;

order : shift | order '<' shift | order '>' shift | order LE shift | order GE shift ;

equality : order | equality EQ order | equality NE order ;

bit_and : equality | bit_and '&' equality ;

bit_xor : bit_and | bit_xor '^' bit_and ;

bit_or : bit_xor | bit_or '|' bit_xor ;

both : bit_or | both AND bit_or ;

either : both | either OR both ;

choice : either | either '?' expression ':' choice ;

assignment : choice | unary assign assignment ;

assign : '=' | SET_MUL | SET_DIV | SET_MOD | SET_ADD | SET_SUB
       | SET_SHL | SET_SHR | SET_AND | SET_XOR | SET_OR
       ;

expression : assignment | expression ',' assignment ;

constant : choice ;

declaration : specifiers ';' | specifiers initials ';' ;

specifiers : storage
           | storage specifiers
           | type
           | type specifiers
           | qualifier
           | qualifier specifiers
           ;

initials : initial | initials ',' initial ;

initial : declarator | declarator '=' initializer ;

storage : TYPEDEF | EXTERN | STATIC | AUTO | REGISTER ;

type : VOID | CHAR | SHORT | INT | LONG | FLOAT | DOUBLE | SIGNED | UNSIGNED
     | record
     | enumeration
     | TYPE
     ;

qualifier : CONST | VOLATILE ;

record : struct_or_union NAME '{' members '}'
       | struct_or_union '{' members '}'
       | struct_or_union NAME
       ;

struct_or_union : STRUCT | UNION ;

members : member | members member ;

member : type_parts fields ';' ;

type_parts : type type_parts | type | qualifier type_parts | qualifier ;

fields : field | fields ',' field ;

field : declarator | ':' constant | declarator ':' constant ;

enumeration : ENUM '{' enumerators '}' | ENUM NAME '{' enumerators '}' | ENUM NAME ;

enumerators : enumerator | enumerators ',' enumerator ;

enumerator : NAME | NAME '=' constant ;

declarator : pointer direct | direct ;

direct : NAME
       | '(' declarator ')'
       | direct '[' constant ']'
       | direct '[' ']'
       | direct '(' parameter_types ')'
       | direct '(' names ')'
       | direct '(' ')'
       ;

pointer : '*' | '*' qualifiers | '*' pointer | '*' qualifiers pointer ;

qualifiers : qualifier | qualifiers qualifier ;

parameter_types : parameters | parameters ',' DOTS ;

parameters : parameter | parameters ',' parameter ;

parameter : specifiers declarator | specifiers abstract | specifiers ;

names : NAME | names ',' NAME ;

type_name : type_parts | type_parts abstract ;

abstract : pointer | direct_abstract | pointer direct_abstract ;

direct_abstract : '(' abstract ')'
                | '[' ']'
                | '[' constant ']'
                | direct_abstract '[' ']'
                | direct_abstract '[' constant ']'
                | '(' ')'
                | '(' parameter_types ')'
                | direct_abstract '(' ')'
                | direct_abstract '(' parameter_types ')'
                ;

initializer : assignment | '{' initializers '}' | '{' initializers ',' '}' ;

initializers : initializer | initializers ',' initializer ;

statement : labeled | block | simple | selection | iteration | jump ;

labeled : NAME ':' statement | CASE constant ':' statement | DEFAULT ':' statement ;

block : '{' '}' | '{' statements '}' | '{' declarations '}' | '{' declarations statements '}' ;

declarations : declaration | declarations declaration ;

statements : statement | statements statement ;

simple : ';' | expression ';' ;

selection : IF '(' expression ')' statement
          | IF '(' expression ')' statement ELSE statement
          | SWITCH '(' expression ')' statement
          ;

iteration : WHILE '(' expression ')' statement
          | DO statement WHILE '(' expression ')' ';'
          | FOR '(' simple simple ')' statement
          | FOR '(' simple simple expression ')' statement
          ;

jump : GOTO NAME ';' | CONTINUE ';' | BREAK ';' | RETURN ';' | RETURN expression ';' ;

unit : external | unit external ;

external : function | declaration ;

function : specifiers declarator declarations block
         | specifiers declarator block
         | declarator declarations block
         | declarator block
         ;
