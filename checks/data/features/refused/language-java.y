%token A
/* refused below: %language */
%language "Java"
%%
all : A ;
