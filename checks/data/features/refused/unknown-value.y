/* the peer refuses it too */
%token A
/* refused below: parse.error */
%define parse.error eloquent
%%
all : A ;
