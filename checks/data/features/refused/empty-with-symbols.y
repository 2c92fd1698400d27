/* the peer refuses it too */
%define api.pure full
%token A
%%
/* refused below: %empty */
all : A %empty ;
