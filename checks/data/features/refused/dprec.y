%token A
%%
/* refused below: %dprec */
all : one %dprec 1
    | two %dprec 2
    ;
one : A ;
two : A ;
