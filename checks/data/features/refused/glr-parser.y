%token A
/* refused below: %glr-parser */
%glr-parser
%%
all : A ;
