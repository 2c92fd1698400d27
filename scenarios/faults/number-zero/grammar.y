%token A
0 %% s : A ;