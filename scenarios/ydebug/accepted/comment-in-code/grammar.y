%{
/* %expect 1 */
%}
%token N
%%
e : e '-' e { /* %expect 1 */ }
  | N
  ;
