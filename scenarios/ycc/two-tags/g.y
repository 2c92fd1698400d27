%union { int i; char *s; }
%token <i> A
%type <i> s
%nterm <s> s t
%type <i> t
%%
s : A t { } ;
t : A { } ;
