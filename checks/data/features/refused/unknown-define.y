/* the peer refuses it too */
%token A
/* refused below: api.nothing */
%define api.nothing full
%%
all : A ;
