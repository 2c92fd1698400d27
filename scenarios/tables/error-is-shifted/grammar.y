%%
s : 'a'
  | error
  ;
