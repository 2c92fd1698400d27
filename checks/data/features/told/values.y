/* bison tells: -Wall */
%union { int i; char *s; }
%token <i> NUM
%token <s> TEXT
%token SIGN
%type <i> sum
%type <s> text
%destructor { (void) $$; } <s> SIGN
%%
all : sum { } | text { } ;
sum : NUM
    | sum SIGN NUM { $$ = $1 + $3; }
    | sum SIGN text NUM { $$ = $1; }
    | TEXT
    | SIGN sum
    | { } text { $$ = 0; }
    |
    ;
text : TEXT[word] SIGN[sign] { $$ = $word; }
     | text TEXT { }
     | TEXT TEXT TEXT
     | sum
     | { }
     | %empty
     ;
