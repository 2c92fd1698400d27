/* bison tells: -Wnone */
%token <n> A B
%printer { } <*> A
%destructor { } <>
%printer { } <*>
%destructor { } <> <n>
%destructor { } <n> B
%printer { } B A
%union { int n; }
%%
s : A B { } ;
