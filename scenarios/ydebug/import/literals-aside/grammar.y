%token A
%destructor { } 'x' 'y' '\x79' '+'
%printer { } 'y' 'z'
%%
s : A '+' A ;
