
%{ open