
%start
'a' %% s : 'a' ;