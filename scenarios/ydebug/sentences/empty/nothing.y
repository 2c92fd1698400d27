%%
s : /* nothing */
  | s 'x'
  ;
