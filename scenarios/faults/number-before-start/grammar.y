%start A
%token A 0
%% s : A ;