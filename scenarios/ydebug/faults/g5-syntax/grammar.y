%token A
s : A ;
