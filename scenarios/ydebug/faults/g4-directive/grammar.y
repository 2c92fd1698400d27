%token A
%expect 1
%%
s : A ;
