%token N
%% /* %expect 2 */
e : e '-' e
  | N
  ;
