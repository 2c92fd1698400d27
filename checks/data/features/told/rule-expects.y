/* bison tells: -Wno-conflicts-sr */
%token A B IF ELSE
%%
s : A %expect-rr 1
  | s B s %expect 2 { }
  | IF s %expect 1
  | IF s ELSE s %expect 3 ;
