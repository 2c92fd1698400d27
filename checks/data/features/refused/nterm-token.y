/* the peer refuses it too */
%token A
/* refused below: */
%nterm A
%%
all : A ;
