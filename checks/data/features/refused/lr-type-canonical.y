%token A
/* refused below: lr.type */
%define lr.type canonical-lr
%%
all : A ;
