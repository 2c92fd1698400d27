%token EXPLAIN STATIC CONST NAME CAST
%%
stat : EXPLAIN storage constants NAME
     | EXPLAIN constants storage NAME
     | EXPLAIN constants NAME
     | EXPLAIN NAME CAST
     ;
storage : STATIC ;
constants : | constants CONST ;
