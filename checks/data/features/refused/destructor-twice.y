/* the peer refuses it too */
%require "3.0"
%token A
%destructor { } A
/* refused below: */
%destructor { } A
%%
all : A ;
