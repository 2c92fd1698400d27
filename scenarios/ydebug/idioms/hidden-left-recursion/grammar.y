%token T
%%
e : mark e '+' T | T ;
mark : ;
