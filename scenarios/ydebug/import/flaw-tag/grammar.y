%token <a A
%%
s : A ;
