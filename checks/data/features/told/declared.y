/* bison tells: */
%token NUM "number" PLUS "plus"
%token STR "number"
%token ID "id" ID "id", OTHER
%token AND "and"
%token AND "&&"
%type start unused
%type nowhere
%destructor { } absent <gone>
%printer { } <*>
%define api.pure
%define api.pure
%start start
%%
start : NUM PLUS STR | AND | start ID OTHER ;
