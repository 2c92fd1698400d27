%token LE "<=" GE _(">=")
%token LE "less or equal" WORDS 'many words'
%%
s : LE GE | GE WORDS | GE 'several' ;
