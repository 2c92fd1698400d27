%token INDENT WORD NAME
%%
block : NAME
      | WORD ';'
      | INDENT NAME
      ;
