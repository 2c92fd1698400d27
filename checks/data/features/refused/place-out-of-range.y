/* the peer refuses it too */
%define api.pure full
%locations
%token A
%%
all : A A A
      /* refused below: @4 */
      { f (@4); }
    ;
