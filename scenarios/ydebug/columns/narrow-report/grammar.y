%token IF ELSE ID
%%
list : list statement
     | statement
     ;
statement : ID ';'
          | IF ID statement
          | IF ID statement ELSE statement
          ;
