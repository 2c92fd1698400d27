/* the peer refuses it too */
/* refused below: api.value.type */
%define api.value.type {int}
%union { int number; }
%token A
%%
all : A ;
