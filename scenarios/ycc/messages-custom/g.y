%define parse.error custom
%token NUM
%%
sum : sum '+' NUM | NUM ;
