%token END 0 "end of file"
%token NUM YYEOF 0
%type <n> END
%%
s : list END { done(); } | YYEOF | list "end of file" { a(); } ;
list : NUM | list NUM ;
