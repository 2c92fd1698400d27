%token NAME
%%
lines : line
      | lines line
      ;
line  : NAME '\n'
      | '#' NAME '\n'
      | '#' '#'
      ;
