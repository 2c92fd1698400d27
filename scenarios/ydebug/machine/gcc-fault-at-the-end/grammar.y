%token NUM
