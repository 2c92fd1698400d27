%%
s : 'a'   /* name: s_2 */
  | 'b'
  ;
