%union { int one; }
%token A B
%%
s : A <one>{ $$ = 1; } B ;
