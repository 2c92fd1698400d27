%token A
%type <A>
s
A
%%
s : A ;
A : ;