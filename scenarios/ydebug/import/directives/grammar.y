%require "3.2"
%define api.pure full
%define parse.error verbose /* kept */
%code requires {
  struct scanner;
}
%parse-param { struct scanner *s } { int deep }
%lex-param { struct scanner *s }
%destructor { free($$); } <text> NAME
%printer { put($$); } <*>
%initial-action { @$.first = 1; }
%name-prefix="zz"
%output "y.c"
%language "C++"
%skeleton "lalr1.cc"
%defines "y.h"
%pure-parser %locations %error-verbose %verbose %debug %token-table %no-lines %yacc
%ident "a file"
%file_prefix "y"
%header
%token NAME
%%
s : NAME { $$ = 1; } ;
