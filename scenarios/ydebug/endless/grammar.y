%token HIGH
%left 'x'
%left HIGH
%%
s : e s
  | 'x'
  ;
e : %prec HIGH
  ;
