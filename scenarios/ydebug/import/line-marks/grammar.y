#line 1 "other.y"
%token A
%%
#line 7 "other.y"
s : A ;
