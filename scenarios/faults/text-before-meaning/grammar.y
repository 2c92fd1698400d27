%token s
%%
s : t
@ ;