%define api.value.type variant
%token <int> A
%%
s : A ;
