/* the peer refuses it too */
%token A B
%%
/* refused below: start symbol s does not derive any sentence */
s : A s | s t B
  ;
t : A
  ;
