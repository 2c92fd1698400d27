/* bison draws: */
%nonassoc '<' '>'
%precedence LOW
%precedence HIGH
%%
e : e '<' e | e '>' e | 'n' %prec HIGH | 'n' s 'm' %prec LOW | "quoted \" text" ;
s : HIGH t | %empty %prec HIGH ;
t : 'a' | 'a' 'b' ;
