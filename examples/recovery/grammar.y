/* Settings, one after another; a line that is spoiled is passed over up to its semicolon. */
%token NAME NUMBER
%%
settings : /* nothing */
         | settings setting
         | settings error ';'
         ;
setting  : NAME '=' NUMBER ';'
         ;
