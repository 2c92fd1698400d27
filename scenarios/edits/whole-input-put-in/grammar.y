%token A 300 B %% s : A B '\x41' 'A' ;
