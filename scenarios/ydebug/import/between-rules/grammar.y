%left '+'
%%
e : e '+' e | e TIMES e | NUM ;
%token NUM 300 "number" ;
%left TIMES /* kept */ ;
%destructor { free($$); } NUM ;
%type <n> e ;
f : e ;
%start f ;
