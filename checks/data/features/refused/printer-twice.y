/* the peer refuses it too */
%printer { } <*>
/* refused below: */
%printer { } <*>
%token A
%%
all : A ;
