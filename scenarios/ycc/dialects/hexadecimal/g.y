%token A 0x200
%%
s : A ;
