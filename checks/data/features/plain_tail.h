/* What stands after the grammar: a lexer of digits and signs, which ends with the line. */
static int yylex (void)
{
  int sign = read_sign ();

  if (IS_DIGIT (sign))
    {
      yylval = sign - '0';
      return NUMBER;
    }
  return sign == '\n' ? 0 : sign;
}

static void yyerror (const char *what)
{
  printf ("said: %s\n", what);
}

int main (void)
{
  int ended = yyparse ();
  printf ("ended %d, errors %d\n", ended, yynerrs);
  return ended;
}
