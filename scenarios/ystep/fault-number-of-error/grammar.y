
%token A 256
%% s : A ;