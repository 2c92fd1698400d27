%term NUM
%binary '<'
%%
e : e '<' e | NUM ;
