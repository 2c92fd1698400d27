/* the peer refuses it too */
%define api.pure
/* refused below: */
%define api.pure full
%token A
%%
all : A ;
