%token END 0 "end of input" NUM "number" NAME
%%
sum : value | sum "and also" value ;
value : NUM | NAME ;
