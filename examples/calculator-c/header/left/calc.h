/* What a parser that ycc made declares. */
#ifndef YY_yy_CALC_H_INCLUDED
#define YY_yy_CALC_H_INCLUDED

#ifndef YYTOKENTYPE
# define YYTOKENTYPE
enum yytokentype {
  NUMBER = 257,
  VARIABLE = 258,
  SIGN = 259
};
#endif
#define NUMBER 257
#define VARIABLE 258
#define SIGN 259

#if ! defined YYSTYPE && ! defined YYSTYPE_IS_DECLARED
union YYSTYPE
{
#line 11 "calc.y"

  double number;
  int variable;
#line 25 "calc.h"
};
typedef union YYSTYPE YYSTYPE;
# define YYSTYPE_IS_TRIVIAL 1
# define YYSTYPE_IS_DECLARED 1
#endif

extern YYSTYPE yylval;

#endif
