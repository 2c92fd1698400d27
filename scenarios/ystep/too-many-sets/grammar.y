%%
s : 'a' s | 'b' s | 'a' p1 ;
p1 : 'a' p2 | 'b' p2 ;
p2 : 'a' p3 | 'b' p3 ;
p3 : 'a' p4 | 'b' p4 ;
p4 : 'a' p5 | 'b' p5 ;
p5 : 'a' p6 | 'b' p6 ;
p6 : 'a' p7 | 'b' p7 ;
p7 : 'a' p8 | 'b' p8 ;
p8 : 'a' p9 | 'b' p9 ;
p9 : 'a' p10 | 'b' p10 ;
p10 : 'a' p11 | 'b' p11 ;
p11 : 'a' p12 | 'b' p12 ;
p12 : 'a' p13 | 'b' p13 ;
p13 : 'a' p14 | 'b' p14 ;
p14 : 'a' | 'b' ;
