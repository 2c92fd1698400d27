%union { int n; }
%token <n> A
%%
s : A 'x'
    { /* $$ */ $<n>$ = $1 + "$2"[0] + $2; } ;
