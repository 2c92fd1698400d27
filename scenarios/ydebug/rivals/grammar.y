/* A name is a type or a variable: two rules for one token, and a third that is never reduced. */
%token NAME
%%
list  : item
      | list item
      ;
item  : type NAME ';'
      | var ';'
      | other ';'
      ;
type  : NAME
      ;
var   : NAME
      ;
other : NAME
      ;
