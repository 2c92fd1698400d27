%% s : 'a' p 'd' | 'b' q 'd' | 'a' q 'e' | 'b' p 'e' ; p : 'c' ; q : 'c' ;
