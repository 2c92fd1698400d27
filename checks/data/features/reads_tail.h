/* What stands after the grammar where it matters when a token is read: a lexer of digits, letters
   and signs that tells of each. */
static int yylex (void)
{
  int sign = read_sign ();

  printf ("read %c\n", sign == '\n' || sign == 0 ? '$' : sign);
  if (IS_DIGIT (sign))
    {
      yylval = sign - '0';
      return NUMBER;
    }
  return sign == '\n' ? 0 : sign;
}

static void yyerror (const char *what)
{
  printf ("said: %s\n", what);
}

int main (void)
{
  int ended = yyparse ();
  printf ("ended %d, errors %d\n", ended, yynerrs);
  return ended;
}
