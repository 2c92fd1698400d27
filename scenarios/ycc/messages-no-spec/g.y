%token NUM
%%
sum : sum '+' NUM | NUM ;
