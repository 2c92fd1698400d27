%token A 40000 B 40000
%%
s : A B ;
