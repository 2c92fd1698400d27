%token NUM "number" MINUS "-" IDLE "idle"
%%
e[all]: "number"[n] | e[left] "-" e[right] { $all = $left - $right; } ;
