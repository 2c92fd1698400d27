/* bison tells: -Wno-other */
%skeleton "lalr1.cc"
%locations
%define namespace "one::two"
%define parser_class_name reader
%define location_type "place"
%define lex_symbol
%define variant true
%define api.tokens.prefix {T_}
%define lr.keep_unreachable_states
%define api.prefix
%define parse.error {verbose}
%token A
%%
s : A ;
