/* bison draws: -Wnone */
%token A B C D UNUSED ONLY
%left '+'
%right '^'
%precedence NEG
%%
s: e;
u: A u2 %prec ONLY;
u2: B | u { mid (); } B { last (); };
e: A | dead C | e '+' e | e '^' e | '-' e %prec NEG | n;
dead: dead D { x (); } B | '!' ;
n : C | n2 ;
n2: n2 D | n2 n3 B { y (); } A ;
n3: n2 | n3 C ;
%%
