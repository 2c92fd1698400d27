
%token B 301
%token A 300
%token A 301 %% s : A ;