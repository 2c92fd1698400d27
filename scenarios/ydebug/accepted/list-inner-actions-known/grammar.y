%token A B C D
%%
s : D { zero(); } C
  | A { one(); } B
  | A { two(); } C
  | A B
  ;
