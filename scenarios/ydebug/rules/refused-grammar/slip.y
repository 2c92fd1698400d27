%token NUMBER NAME
%%
s : NAME NUMBR ; /* name: 2nd */
