%define api.pure
%token A
%%
s : A A { f ($A); } ;
