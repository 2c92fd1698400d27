/* bison tells: -Wmidrule-values */
/* By the manual, "Diagnostics": the first rule sets $2 and uses it nowhere, the second uses it and
   doesn't set it. */
%%
exp: '1' { $$ = 1; } '+' exp { $$ = $1 + $4; }
   | '2' { $1 = 1; } '+' exp { $$ = $2 + $4; }
   | '3' ;
