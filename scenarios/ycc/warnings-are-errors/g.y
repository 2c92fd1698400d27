%code { int x; }
%token A
%%
s : A ;
t : ;
