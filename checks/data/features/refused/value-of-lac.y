/* the peer refuses it too */
/* refused below: */
%define parse.lac some
%token A
%%
all : A ;
