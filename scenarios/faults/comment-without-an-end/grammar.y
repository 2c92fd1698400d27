%% s : 'a'
/* open
