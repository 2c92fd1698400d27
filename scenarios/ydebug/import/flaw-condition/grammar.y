%token A
#if A
%%
s : A ;
