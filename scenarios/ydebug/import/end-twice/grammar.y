%token END 0
%token D
%expect-rr 1
%%
s : D END { first(); } | D END { second(); } ;
