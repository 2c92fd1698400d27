%left A

A
%left A %% s : A ;