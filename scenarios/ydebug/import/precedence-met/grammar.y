%precedence A
%token X
%%
s : s A s | X ;
