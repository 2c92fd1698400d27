%language "Java"
%token A
%%
s : A ;
