%initial-action { @$.first_line = 1; }
%token A B
%%
s : A ;
