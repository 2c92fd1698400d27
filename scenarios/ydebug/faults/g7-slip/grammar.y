%token NUMBER NAME
%%
s : NAME NUMBR ;
