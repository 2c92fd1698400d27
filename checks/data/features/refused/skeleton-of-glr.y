%union { int number; };
%token <number> A
/* refused below: another kind of parser */
%skeleton "glr.c"
%%
all : A ;
