%define lr.type ielr
%token N
%%
s : N ;
