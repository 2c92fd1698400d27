%output "g.y"
%%
s : 'a' ;
