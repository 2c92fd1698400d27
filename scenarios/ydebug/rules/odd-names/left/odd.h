/* Names for the numbers of a table of yacc: ydebug rules made them. */
#ifndef YD_RULES_4932d213
#define YD_RULES_4932d213

/* The digest of the table, for yd_read_checked. */
#define TABLE_DIGEST 0x4932d213UL

enum {
  RULE_s_t_1 = 1, /* s.t: A.B u.v.w A_1 C '\012' */
  RULE__last_1 = 2, /* s.t: s.t '*' '/' error */
  RULE_u_v_w_1 = 3 /* u.v.w: (empty) */
};

/* The numbers that a lexer gives. */
enum {
  TOKEN_A_1 = 258,
  TOKEN_C = 300
};

#endif
