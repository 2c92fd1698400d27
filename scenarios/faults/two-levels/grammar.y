%left '+'
%right
'+'
%% s : '+' ;