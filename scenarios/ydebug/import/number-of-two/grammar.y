%token A 300
%token A 40000
%%
s : A ;
