/* the peer refuses it too */
/* refused below: */
%token A 2147483647
%%
all : A ;
