%token NUM "number"
%%
exp : "number"        // name: a number
    | '(' exp ')' ;
