// first
%token A // one */ two
%% /* kept // */
s // between
 : A { // in an action
 } ;
