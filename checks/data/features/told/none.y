/* bison tells: -Wall -Wyacc -Wnone -Werror */
%pure-parser
%token X X "x"
%%
s : X | X t "y" ;
t : | s ;
u : X ;
