%token A
%nterm A
%%
s : A ;
