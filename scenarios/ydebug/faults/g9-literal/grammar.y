%token A 98 B 97
%%
s : A B 'a' ;
