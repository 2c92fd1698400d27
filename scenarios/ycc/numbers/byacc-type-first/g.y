%union { int number; }
%type <number> C
%token A 258 B C
%%
s : A B C ;
