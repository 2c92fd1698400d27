%token A B C
%%
s : A { one(); } q { two(); } C
  ;
q : B
  | q C
  ;
