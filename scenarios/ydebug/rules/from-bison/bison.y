// name: sums
%define api.value.type {int}
%token NUM "number"
%left '+'
%%
list : %empty        // name: nothing
     | list exp ';'
     ;
exp  : "number"
     // name: add
     | exp '+' exp   { $$ = $1 + $3; // name: code
                     }
     ;
