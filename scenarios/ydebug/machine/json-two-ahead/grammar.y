%token ID
%%
grammar : | grammar rule ;
rule : ID ':' body ;
body : | body ID ;
