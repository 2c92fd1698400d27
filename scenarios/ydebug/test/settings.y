%token NAME NUM
%%
list : setting
     | list setting
     ;
setting : NAME '=' NUM ';' ;
