%token A %start z /* name: listed */
%%  /* name: mark */
s : A ;
t /* name: colon */ : s A ;
/* name: above */
u : t A
  | A /* name: within */ A
  | u t  /* name: after */
  /* name: bar */
  | A A A
  | /* name: first */
    A A A A
  | A
    /* name: inside */
    A t
  | A t A
    /* name: below */
  ;
v : u
  ; /* name: end */
/* name: lone */

w : v
  | w /*name:action*/ u { /* name: code */ }
  | w t ; x : w /* name: one_line */ ; y : x /* name
  : wrapped
  */ ;
/* plain */ z : y | y t /* a name: none */ /* name: last */
%%
/* name: never */
