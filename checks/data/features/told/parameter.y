/* bison tells: */
%parse-param { }
%token A
%%
s : A ;
