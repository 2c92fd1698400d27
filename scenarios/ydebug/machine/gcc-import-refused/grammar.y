%glr-parser
%token N
%%
e: N ;
