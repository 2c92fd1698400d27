%token A 300 B 300
%%
s : A B ;
