%token A
300
%token A
300 %% s : A ;