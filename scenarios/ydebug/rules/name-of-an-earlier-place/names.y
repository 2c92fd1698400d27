%%
s : 'a'
  | 'b'   /* name: s_1 */
  ;
