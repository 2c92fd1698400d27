/* the peer refuses it too */
%define api.pure full
%token A
%%
one : A
    /* refused below: $one */
    | one '+' A { $one = $1; }
    ;
