%start 'a'
%start s
%start s %% s : 'a' ;