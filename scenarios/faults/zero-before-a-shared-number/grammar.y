
%token C 0
%token A 300
%token B 300 %% s : A ;