%token A 0
%left A A %% s : A ;