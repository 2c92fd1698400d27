/* the peer refuses it too */
%token A 40000
/* refused below: number */
%token B 40000
%%
all : A B ;
