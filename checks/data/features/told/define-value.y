/* bison tells: */
%token A
  %define lr.default-reduction few
%%
s : A ;
