%{

%}
%tokens A %% s : A ;