%token A B
%%
s : { one } A
  |
    { two }
    { three } A B
  | B
    { last }
  ;
