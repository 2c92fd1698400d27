%token A
97
%% s : A
'a' ;