%%
s : 'a'   /* name: first */
  | 'b'   /* name: 2nd */
  ;
