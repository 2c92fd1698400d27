/* bison tells: -Wno-other */
%token X
%%
s : X X | a X | b X | c X ;
a : X ;
b : X ;
c : X ;
