%% s : { a } 'x' { b } t { c } ; t : { d } %prec 'x' { e } ;
