/* refused below: %skeleton */
%skeleton "lalr1.java"
%%
all : ;
