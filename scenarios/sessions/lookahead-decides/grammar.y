%% s : l '=' r | r ; l : '*' r | 'i' ; r : l ;
