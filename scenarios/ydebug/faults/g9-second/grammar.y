%token A 300
%token B 301 A 302
%%
s : A B ;
