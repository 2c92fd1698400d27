%token A
/* refused below: %no-default-prec */
%no-default-prec
%%
all : A ;
