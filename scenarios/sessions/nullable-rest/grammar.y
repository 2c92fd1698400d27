%% s : p q 'x' ; p : 'y' ; q : ;
