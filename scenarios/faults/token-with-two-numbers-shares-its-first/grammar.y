
%token A 300
%token A 301
%token B 300 %% s : A ;