%token N "n"
%%
e: "n" | e[x] '-' M ;
