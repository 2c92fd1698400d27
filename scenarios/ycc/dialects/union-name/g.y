%union it { int number; }
%token <number> A
%%
s : A ;
