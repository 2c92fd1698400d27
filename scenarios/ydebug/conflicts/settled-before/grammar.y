%token A B
%%
s : a B
  | a c A
  ;
a :
  | A
  ;
c :
  | A
  ;
