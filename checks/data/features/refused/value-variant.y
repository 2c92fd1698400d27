/* the peer refuses it too */
%token A
/* refused below: api.value.type */
%define api.value.type variant
%%
all : A ;
