%%
s : 'a'
  /* name: one */
  | 'b'   /* name: two */
  ;
