%token NUM "number"
%%
sum : "number" | sum '+' "number" ;
