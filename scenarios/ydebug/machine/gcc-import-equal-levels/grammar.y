%token NUM  %precedence OR
%%
e : NUM | e OR e ;
