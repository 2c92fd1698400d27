%TOKEN NUM
%Left '+'
%Start e
%LOCATIONS
%%
e : e '+' e %PREC '+' | NUM ;
