%code { int x; }
%token A A
%%
s : A | A t | u ;
t : ;
u : A ;
