/* bison tells: -Wno-other */
%pure_parser
%name-prefix "foo"
%error-verbose
%file-prefix = "x"
%expect_rr 0
%define api.push_pull pull
%define lr.default-reductions "most"
%define parse.lac "none"
%define api.token.prefix "T_"
%token_table
%no_lines
%token A
%%
s : A ;
