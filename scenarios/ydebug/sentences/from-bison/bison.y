%token LE "<="
%%
s: %empty | s "<=" 'x';
