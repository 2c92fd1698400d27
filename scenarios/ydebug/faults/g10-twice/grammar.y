%token A
%start s
%start t
%%
s : t ;
t : A ;
