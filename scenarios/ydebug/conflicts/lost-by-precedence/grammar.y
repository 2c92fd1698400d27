%token A
%nonassoc LOW
%nonassoc X
%%
s : e X ;
e : A %prec LOW
  | A X
  ;
