/* the peer refuses it too */
%define api.pure full
%token A
%%
all : A A A
      /* refused below: $5 */
      { f ($5); }
    ;
