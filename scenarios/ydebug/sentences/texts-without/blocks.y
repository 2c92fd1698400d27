%token NAME WORD INDENT
%%
block : NAME
      | INDENT NAME
      | WORD ';'
      ;
