%token A, B;
%left '+', '-' ;
%type <n> s, t;
%start s;
%union { int n; };
%{ int x; %};
%%
s : t | A '+' B
t : A
