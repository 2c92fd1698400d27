/* the peer refuses it too */
/* refused below: version */
%require "3"
%token A
%%
all : A ;
