%token NUM "number" ID "identifier" END 0 "end of file"
%token EQ "==" RANGE ".." PIPE "|>" BACK "\\"
%token KW_IF "if" KW_OTHER "or else" NOT "not" SEP "a-b"
%%
s : e EQ e | e RANGE e | e PIPE e | e BACK e | KW_IF e KW_OTHER e | NOT e SEP e ;
e : NUM | ID ;
