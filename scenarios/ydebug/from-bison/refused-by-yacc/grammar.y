%expect 0
%token A
%%
s : A B ;
