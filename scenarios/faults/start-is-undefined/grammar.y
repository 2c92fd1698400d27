

%start u %% s : 'a' ;