%token A
%frobnicate
%%
s : A ;
