%token NUM
%%
s[result] : e[left] '+' e[right] { $result = $left + $right; }
  | %empty { $$ = 0; }
  | <n>{ inner(); }[mid] NUM %expect 0 = { outer(); } ;
e : NUM[n]NUM ;
