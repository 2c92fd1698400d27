%language "c++"
%define api.push-pull push
%token A
%%
s : A ;
