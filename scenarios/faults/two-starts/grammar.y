%start s
%start
s %% s : ;