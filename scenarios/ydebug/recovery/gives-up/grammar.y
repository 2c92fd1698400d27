/* A list of settings without a rule for what is spoiled. */
%token NAME NUMBER
%%
settings : setting
         | settings setting
         ;
setting  : NAME '=' NUMBER ';'
         ;
