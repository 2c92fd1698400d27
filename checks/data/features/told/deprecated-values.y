/* bison tells: -Wno-other */
%define stype {int}
%define api.push_pull {pull}
%define api.prefix word_
%define api.token.prefix
%define parse.lac {none}
%define lr.type "lalr"
%token A
%%
s : A ;
