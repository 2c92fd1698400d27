%define lr.default-reduction most
%token A
%%
s : A ;
