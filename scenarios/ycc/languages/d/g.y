%language "D"
%token A
%%
s : A ;
