%token A-B A_B
%%
s : A-B A_B ;
