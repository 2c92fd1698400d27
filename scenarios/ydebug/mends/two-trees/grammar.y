%token NAME STRING DOTS
%%
s : old | new ;
old : head '(' dots ')' STRING ;
head : NAME STRING | STRING STRING ;
dots : DOTS ;
new : front list STRING ;
front : NAME STRING ;
list : '(' DOTS ')' ;
