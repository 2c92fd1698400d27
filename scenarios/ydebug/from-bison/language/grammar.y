%token NUM
%%
s : NUM "+" NUM ;
