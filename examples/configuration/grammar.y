/* A small configuration language: sections of keys, each with a value or a list of values. */
%token NAME NUMBER TEXT
%start file
%%
file    : section
        | file section
        ;
section : '[' NAME ']' { open_section($2); } entries { close_section(); }
        ;
entries : /* nothing */
        | entries entry
        ;
entry   : NAME '=' value ';' { set($1, $3); }
        ;
value   : NAME
        | NUMBER
        | TEXT
        | '{' values '}'
        | '{' '}'
        ;
values  : value
        | values ',' value
        ;
