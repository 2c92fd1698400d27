
%token A 300
%token B 300
%token C 0 %% s : A ;