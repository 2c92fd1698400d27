%token A B
%%
s : a B
  | a c A
  ;
a : d ;
d :
  | A
  ;
c :
  | A
  ;
