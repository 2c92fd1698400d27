/* bison tells: */
%define locations perhaps
%token A
%%
s : A ;
