/* bison draws: */
%token A B IF ELSE ID
%%
s : x A | y A | x B | z | t ;
x : A ;
y : A ;
z : A | A B ;
t : IF ID t
  | IF ID t ELSE t
  | ID
  ;
