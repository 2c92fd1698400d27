%token ID NUM
%%
grammar : | grammar rule ;
rule : ID ':' body ;
body : | body ID | body '(' e ')' ;
e : NUM | e '+' e | e '*' e ;
