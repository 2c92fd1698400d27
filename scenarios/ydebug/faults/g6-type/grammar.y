%token A
%type <t> A
%%
s : A ;
