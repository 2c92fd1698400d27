%% s : 'a' | error ;
