%token N "number" LE "<="
%%
e : N LE N ;
