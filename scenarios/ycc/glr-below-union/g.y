%union { int number; };
%token <number> A
%skeleton "glr.c"
%%
s : A ;
