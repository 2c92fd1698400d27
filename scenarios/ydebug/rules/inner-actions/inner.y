%token A B
%%
s : { one } A
  |
    { two }
    { three } A B   /* name: both */
  | B
    { last }
  ;
t : A { four } B ;
s : A A ;
s : B t { five } A { six } ;
