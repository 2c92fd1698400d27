

%start 'a' %% s : 'a' ;