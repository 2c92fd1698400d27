%left '+'
%right '+'
%% s : '+' ;