%token NAME NUM
%%
list: | list set ;
set: NAME '=' NUM ';' | error ';' ;
