%token NAME NUM
%%
pair : NAME '=' NUM
     | NAME NAME
     | NUM NAME
     ;
