%%
s : 'a'   /* name: one */
  | 'b'   /* name: two */
  | 'c'   /* name: one */
  ;
