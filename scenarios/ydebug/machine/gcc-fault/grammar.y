%token NUM
%%
sum : sum '+' NUN
    | NUM
    ;
