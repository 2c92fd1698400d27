%token A
%type <n> s t
%%
s : A ;
