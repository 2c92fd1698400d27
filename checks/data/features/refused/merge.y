%token A
%%
/* refused below: %merge */
all : one %merge <joined>
    | two %merge <joined>
    ;
one : A ;
two : A ;
