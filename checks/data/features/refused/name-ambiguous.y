/* the peer refuses it too */
%define api.pure full
%token A
%%
/* refused below: $one */
all : one '+' one { f ($one); }
    ;
one : A ;
