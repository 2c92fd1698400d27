%{
#  define X context->it
%}
%parse-param { struct context *context }
%lex-param { void *X }
%token A B
%%
s : A ;
