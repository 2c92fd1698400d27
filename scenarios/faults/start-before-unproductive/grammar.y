%start 'a'
%% s : s 'a' ;