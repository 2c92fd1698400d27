%token NAME NUM
%%
list : set
     | list ';' set
     ;
set : NAME '=' sum ;
sum : NUM
    | sum '+' NUM
    ;
