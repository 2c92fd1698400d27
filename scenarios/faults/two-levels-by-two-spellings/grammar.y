%left '+'
%left '\53' %% s : '+' ;