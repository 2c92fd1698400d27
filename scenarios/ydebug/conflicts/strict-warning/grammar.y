%token N M
%%
e : e '-' N
  | N
  ;
