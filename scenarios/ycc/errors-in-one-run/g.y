%define parse.error loud
%define locations perhaps
%union { int n; char *s; }
%token <n> A
%token B
%type <n> s
%type <s> s
%destructor { } <n>
%destructor { } <n>
%expect 2
%%
s : A { $$ = $3; }
  | s B s { $$ = $2 + $four; }
  | B { g ($0); } A { $$ = $3; }
  ;
