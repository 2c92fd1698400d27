%token G
%right A
%%
s : '(' s ')'
  | A s %prec G
  | 'x'
  ;
