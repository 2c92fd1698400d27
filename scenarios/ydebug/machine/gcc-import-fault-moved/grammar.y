%%
s : A ;
%token A 7 B 7 ;
