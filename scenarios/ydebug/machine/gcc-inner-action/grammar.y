%token A B C
%%
s : A { one(); } B
  | A { two(); } C
  | A B
  ;
