%token A
%{ int n;
%%
s : A ;
