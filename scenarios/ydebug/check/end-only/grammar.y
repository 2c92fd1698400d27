%token ID NUM '='
%%
pair : ID NUM ;
