%token A B
%%
list : item
     | item list
     ;
item : A A A ';'
     | error ';'
     ;
