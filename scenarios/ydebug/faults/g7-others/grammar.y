%token NUM
%%
s : NUM term 'x' OPEN s CLOSE | OPEN term NUM ;
