%token <n> NUM ADD "+"
%type <n> e NUM absent ADD "+" '*'
%nterm <n> f
%nterm g
%type e f
%type <n> NUM
%%
e : f | g ;
f : NUM ;
g : ADD ;
