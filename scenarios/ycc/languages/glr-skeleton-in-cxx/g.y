%skeleton "glr2.cc"
%token A
%%
s : A ;
