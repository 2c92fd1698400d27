%union { int one; double two; }
%token <one> A <two> B
%%
s : A ;
