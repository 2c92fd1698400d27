%token A.B A_1 C 300
%%
s.t : A.B u.v.w A_1 C '\n'
    | s.t '*' '/' error   /* name: _last_1 */
    ;
u.v.w : ;
