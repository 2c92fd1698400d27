/* the peer refuses it too */
%define api.pure full
%token A
%%
all : A[one] A
      {
        f ($one);
        /* refused below: $two */
        f ($two);
      }
    ;
