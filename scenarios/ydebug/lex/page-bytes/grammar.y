%token NUM
%%
s : NUM | s '+' NUM ;
