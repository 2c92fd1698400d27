/* the peer refuses it too */
%token <int> A
/* refused below: api.value.type */
%define api.value.type "variant"
%%
all : A ;
