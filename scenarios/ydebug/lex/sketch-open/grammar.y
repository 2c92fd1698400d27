%token piece IF STRING tLE
%nonassoc LOW
%%
s : IF piece tLE STRING '\n' %prec LOW ;
