/* bison tells: -Wall -Werror=other,precedence -Wno-error=empty-rule */
%token X
%left X
%%
s : X | X t X ;
t : | s ;
u : X ;
