%define api.value.type {variant}
%token A
%%
s : A ;
