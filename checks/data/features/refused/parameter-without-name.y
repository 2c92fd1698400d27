/* the peer refuses it too */
%define api.pure full
/* refused below: */
%parse-param { }
%token A
%%
all : A ;
