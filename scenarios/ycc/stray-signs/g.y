%token A
%destructor { f ($$, $1); } A
%%
s : A { g ($1, $<n); } ;
