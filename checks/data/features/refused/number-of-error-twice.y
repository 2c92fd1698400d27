/* the peer refuses it too */
%token error 256
/* refused below: */
%token A 256
%%
all : A ;
