%token LE "<="
%%
s : LE ;
