%token N A
%%
s : A e | e ;
e : N | e '-' e ;
