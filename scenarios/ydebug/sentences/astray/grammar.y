%token A B
%%
s: s s | s A s | B | ;
