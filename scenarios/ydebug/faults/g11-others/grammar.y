%token A
%%
s : list ;
list : item | list A item ;
item : '(' item ')' ;
other : A | item ;
