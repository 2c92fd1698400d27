%{
int depth;
%}
%token <text> WORD 300
%token NL
%start file
%%
file : /* empty */
     | file { depth++; } line
     ;
line : WORD { depth--; } NL
     | NL
     ;
