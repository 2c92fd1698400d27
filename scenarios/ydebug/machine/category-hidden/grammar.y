%token A B C D E
%%
s : C p
  | D q
  ;
p : x B
  | y E
  | w
  ;
q : x E
  | y B
  | w
  ;
x : A ;
y : A ;
w : A B ;
