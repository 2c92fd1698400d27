%token A B C
%%
the-start: A[a] <val>{ one(); } B | A { two(); } C | A B ;
