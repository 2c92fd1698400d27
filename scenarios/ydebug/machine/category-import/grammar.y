%define api.pure full
%token LE "<="
%%
s : LE "x" ;
