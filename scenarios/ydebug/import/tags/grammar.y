%union value { int n; }
%token <std::vector<int>> A <n> B
%type <struct node *> s
%type <a->b> t
%%
s : A t ;
t : B ;
