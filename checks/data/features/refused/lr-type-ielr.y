%token A

/* refused below: lr.type */
%define lr.type ielr
%%
all : A ;
