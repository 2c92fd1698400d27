%token A B

%left A
%%
s : A B ;
