%token a b NAME LONG
%%
list : a NAME
     | b LONG
     | NAME NAME
     ;
