%token ELSE X E
%%
c : c ELSE c | X '(' E ')' ELSE E | X '(' E ')' ;
