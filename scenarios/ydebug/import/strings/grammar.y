%token <t> LE 300 "<=" GE _("greater or equal")
%left "<=" "or"
%token string_2
%%
e : e "<=" e | e "or" e | e "greater or equal" e | e '<>' e %prec "or" | string_2 | "+" ;
