%token A 257 B 256
%%
s : A B ;
