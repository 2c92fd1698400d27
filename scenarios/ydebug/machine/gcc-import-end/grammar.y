%token END 0 "end"
%token D
%expect 1
%%
s : D "end" { first(); } | t ;
t : D ;
