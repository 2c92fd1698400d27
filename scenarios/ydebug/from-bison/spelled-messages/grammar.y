%token END 0 "end of input" '\n' "end of line"
%token NUM "number" LE "<=" NAME
%%
lines : test '\n' | lines test '\n' ;
test  : value "<=" value | "not" test ;
value : NUM | NAME | '(' value ')' ;
