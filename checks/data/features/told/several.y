/* bison tells: */
%token A
%first ;
%second ;
%third word ;
%%
s : A
  ;
