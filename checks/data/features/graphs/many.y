/* bison draws: */
%token TA TB TC '"' '\\' '\t'
%%
all : one | all ';' one ;
one : TA two TA | TB two TB | TC two '"' '\\' ;
two : a | b | c | %empty ;
a : 'x' | a 'x' ;
b : 'y' | 'x' 'y' | b '\t' ;
c : 'x' 'y' 'z' | c 'z' | error ;
