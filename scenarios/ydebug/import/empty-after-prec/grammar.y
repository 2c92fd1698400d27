%left NEG
%%
e : %prec NEG %empty { none(); } | 'x' e ;
