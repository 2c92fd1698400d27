%define api.push-pull sideways
%token A
%%
s : A ;
