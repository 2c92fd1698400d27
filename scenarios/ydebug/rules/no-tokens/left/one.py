"""Names for the numbers of a table of yacc: ydebug rules made them."""

# The digest of the table, for read_table.
TABLE_DIGEST = 0xaa8201c4

RULE_s_1 = 1  # s: 'x'
