%%
s : 'x' ;
%{ int x; %}
t : s ;
