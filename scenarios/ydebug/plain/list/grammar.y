%token NUM %% list : | list NUM ';' | list error ';' ;
