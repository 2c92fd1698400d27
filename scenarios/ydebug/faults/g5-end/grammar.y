%token A
