%precedence A
%token X
%%
s : s A s %prec X | X ;
