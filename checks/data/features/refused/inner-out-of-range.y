/* the peer refuses it too */
%define api.pure full
%token A
%%
/* refused below: $2 */
all : A { f ($2); }
      A
    ;
