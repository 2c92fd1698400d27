/* What a parser that ycc made declares. */
#ifndef YY_yy_CALC_H_INCLUDED
#define YY_yy_CALC_H_INCLUDED

#ifndef YYDEBUG
# define YYDEBUG 0
#endif
#if YYDEBUG
extern int yydebug;
#endif

#ifndef YYTOKENTYPE
# define YYTOKENTYPE
enum yytokentype {
  YYEMPTY = -2,
  YYEOF = 0,
  YYerror = 256,
  YYUNDEF = 257,
  NUMBER = 258,
  SIGN = 259
};
typedef enum yytokentype yytoken_kind_t;
#endif

#if ! defined YYSTYPE && ! defined YYSTYPE_IS_DECLARED
union YYSTYPE
{
  double NUMBER;
  double sum;
};
typedef union YYSTYPE YYSTYPE;
# define YYSTYPE_IS_TRIVIAL 1
# define YYSTYPE_IS_DECLARED 1
#endif

#ifndef YYPUSH_MORE_DEFINED
# define YYPUSH_MORE_DEFINED
enum { YYPUSH_MORE = 4 };
#endif

typedef struct yypstate yypstate;
int yypush_parse (yypstate *yyps, int yypushed_char, YYSTYPE const *yypushed_val);
yypstate *yypstate_new (void);
void yypstate_delete (yypstate *yyps);

#endif
