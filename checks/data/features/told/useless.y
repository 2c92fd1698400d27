/* bison tells: */
%token X Y
%type lost
%nterm none
%%
start : e | X X X ;
e : X | e Y X | X %prec Y | { } X Y ;
lost : X inner ;
inner : { } Y ;
