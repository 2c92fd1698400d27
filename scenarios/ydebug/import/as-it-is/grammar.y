%token A
%%
s : A { /* x */ } ;
%%
anything % here
