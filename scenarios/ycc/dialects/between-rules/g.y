%token A
%%
s : A b ; %token B
b : B ;
