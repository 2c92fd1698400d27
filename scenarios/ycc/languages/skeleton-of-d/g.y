%skeleton "lalr1.d"
%token A
%%
s : A ;
