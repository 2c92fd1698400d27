/* bison tells: -Wall,no-other -Wno-empty -Wdangling */
%token X X "x"
%%
s : X | X t "y" ;
t : | X ;
u : X "y" "z" ;
