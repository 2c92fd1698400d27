%token N A
/* %expect 0 */ /* %expect-rr 1 */
%%
s : a | b | b A ;
a : N ;
b : N ;
