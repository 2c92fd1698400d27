/* Sulderko's proved core: the tables of yacc grammars, verdicts on tokens, and parses that are
   stepped forward and back. For C (from C89 on) and C++; link with -lsulderko. docs/LIBRARY.md
   describes it.

   Each call reads the texts that it is given, by a pointer and a length in bytes, and writes into
   memory of its caller. It takes memory by malloc, and but for the session of a handle it keeps
   nothing and gives all of it back; threads may call at once, each on handles of its own. A pointer
   may be null where its length is 0. Every other pointer is to a thing that is there, and what is
   written overlaps nothing that is read.

   A grammar is a grammar file's text, tokens are names and literals with blanks between them, and
   commands are lines of ystep: docs/FORMATS.md says what each of them has.

   The answer is a status. A call that hands over a text, or numbers, is given room for so many
   bytes, or numbers: it writes the beginning that fits and leaves the rest of the room as it was.
   *len becomes the whole length, so where it is greater than the room a call with more room gives
   all of it. With a status other than SULDERKO_DONE, *len becomes 0 and nothing else is written,
   but for sulderko_fault. */
#ifndef SULDERKO_H
#define SULDERKO_H

#include <stddef.h>

#ifdef __cplusplus
extern "C" {
#endif

/* What a call answers. */
enum sulderko_status {
  SULDERKO_DONE = 0,          /* all was handed over */
  SULDERKO_BAD_GRAMMAR = 1,   /* the grammar has a fault: sulderko_fault says which */
  SULDERKO_BAD_TOKENS = 2,    /* the tokens have a fault: sulderko_fault says which */
  SULDERKO_NO_MEMORY = 3,     /* memory ran out */
  SULDERKO_TOO_MANY_SETS = 4, /* the grammar has more than 16,384 item sets */
  SULDERKO_HALTED = 5,        /* the parse is accepted or has failed: no step and no edit */
  SULDERKO_AT_LIMIT = 6,      /* the position is 1,000,000 */
  SULDERKO_AT_START = 7,      /* nothing can be undone */
  SULDERKO_NO_TOKEN = 8,      /* there is no upcoming token */
  SULDERKO_BAD_TOKEN = 9,     /* what is to be inserted is no input token of the grammar */
  SULDERKO_NOT_ACCEPTED = 10, /* what is to be unwound isn't accepted */
  SULDERKO_HAD_ERROR = 11,    /* what is to be unwound has an error step */
  SULDERKO_NO_SESSION = 12    /* the handle has no session */
};

/* How many conflicts the cells of a grammar's tables count. */
typedef struct sulderko_conflicts {
  size_t shift_reduce;  /* one for each rule that could be reduced beside a shift */
  size_t reduce_reduce; /* one for each rule that could be reduced beside the rule that is */
} sulderko_conflicts;

/* What a verdict says of tokens. */
enum sulderko_outcome {
  SULDERKO_ACCEPTED = 1, /* they are accepted, so they are a sentence */
  SULDERKO_REJECTED = 2, /* an error is detected at a token, or at the end */
  SULDERKO_LIMIT = 3     /* neither within 1,000,000 steps */
};

/* The verdict on tokens. */
typedef struct sulderko_verdict {
  /* One of sulderko_outcome. */
  unsigned int outcome;
  /* 1 where no cell of the tables has a choice, and else 0. With 1 no sentence is rejected, and no
     sentence begins with the tokens up to the rejected one. */
  unsigned int exact;
  /* Accepted: how many steps the parse takes, 2 to 1,000,000; else 0. */
  size_t steps;
  /* Rejected: which token, counted from 1; the end comes after the last one. Else 0. */
  size_t token;
} sulderko_verdict;

/* A fault of a grammar or of tokens: its code, and where it is. What it doesn't have is 0. */
typedef struct sulderko_fault_info {
  /* Of a grammar: 1 to 13, for G1 to G13. Of tokens: 1, 2, 3 or 5, for K1, K2, K3 or K5.
     docs/FAULTS.md has all. */
  unsigned int code;
  /* The line of the grammar, counted from 1. G1, a grammar that is too long, has none. */
  size_t line;
  /* How many bytes of the grammar stand before what is at fault. */
  size_t offset;
  /* Which of the tokens is at fault, counted from 1. K3, too many tokens, has none. */
  size_t place;
} sulderko_fault_info;

/* The arrays of a parser in C, by the names that ycc gives them. */
enum sulderko_array {
  SULDERKO_ROW = 0,     /* yyrow: by a state */
  SULDERKO_CHECK = 1,   /* yycheck: by a row and a token */
  SULDERKO_VALUE = 2,   /* yyvalue: likewise */
  SULDERKO_USUAL = 3,   /* yyusual: by a state */
  SULDERKO_SET = 4,     /* yyset: by a state */
  SULDERKO_BITS = 5,    /* yybits: by a set and a token */
  SULDERKO_GROW = 6,    /* yygrow: by a state */
  SULDERKO_GCHECK = 7,  /* yygcheck: by a row and a left side */
  SULDERKO_GVALUE = 8,  /* yygvalue: likewise */
  SULDERKO_TARGET = 9,  /* yytarget: by a left side */
  SULDERKO_STOS = 10,   /* the symbol that leads to a state, as the table numbers it */
  SULDERKO_LEN = 11,    /* yylen: by a rule */
  SULDERKO_LHS = 12,    /* yylhs: by a rule */
  SULDERKO_TRANSLATE = 13 /* yytranslate: by the number of a token, up to the greatest */
};

/* The numbers by which the arrays of a parser are read. */
typedef struct sulderko_sizes {
  size_t states; /* how many states there are */
  size_t rules;  /* how many rules there are */
  size_t tokens; /* how many tokens there are: also the number of what is no token */
  size_t span;   /* how many bytes of SULDERKO_BITS a set has */
} sulderko_sizes;

/* A handle: what owns a session that goes on from one call to the next. It begins as
   SULDERKO_CLOSED, without a session. Whoever has it leaves `at` alone and makes no copy that is
   used: two handles never have one session. It may go to another thread. A session takes memory
   until its handle is closed. A handle that is neither SULDERKO_CLOSED nor as a call left it can't
   be told from a good one. */
typedef struct sulderko_handle {
  void *at; /* null where there is no session */
} sulderko_handle;

#define SULDERKO_CLOSED {0}

/* The kinds of moves. */
enum sulderko_kind {
  SULDERKO_SHIFT = 1,       /* the token `subject` went to the stack */
  SULDERKO_REDUCE = 2,      /* the body of the rule `subject` was replaced by its left side */
  SULDERKO_ACCEPT = 3,      /* the input was accepted */
  SULDERKO_DETECT = 4,      /* an error was detected */
  SULDERKO_POP = 5,         /* the symbol `subject` was dropped from the stack */
  SULDERKO_SHIFT_ERROR = 6, /* error went to the stack */
  SULDERKO_DISCARD = 7,     /* the token `subject` was dropped from the input */
  SULDERKO_FAIL = 8,        /* the parse gave up */
  SULDERKO_INSERT = 9,      /* the token `subject` was put before the upcoming tokens */
  SULDERKO_DROP = 10        /* the token `subject`, the first upcoming one, was taken out */
};

/* A step or an edit that was made, or undone. */
typedef struct sulderko_move {
  unsigned int kind; /* one of sulderko_kind */
  size_t subject;    /* the number of its symbol or rule, as the table has it; else 0 */
} sulderko_move;

/* What is known of a token that might come next. */
enum sulderko_outlook {
  SULDERKO_UNEXPECTED = 0, /* it can't come */
  SULDERKO_EXPECTED = 1,   /* it could come */
  SULDERKO_UNTOLD = 2      /* the limit of positions comes before that shows */
};

/* The modes of a parse. */
enum sulderko_mode {
  SULDERKO_RUNNING = 1,      /* it does what the table says */
  SULDERKO_POPPING = 2,      /* it looks for a state in which error can be shifted */
  SULDERKO_HAS_ACCEPTED = 3, /* it has accepted its input */
  SULDERKO_HAS_FAILED = 4    /* it has given up */
};

/* Where a session stands. */
typedef struct sulderko_place {
  unsigned int mode; /* one of sulderko_mode */
  size_t position;   /* how many steps and edits stand, 0 to 1,000,000 */
  size_t state;      /* the state on top of the stack, as the table numbers it */
  size_t height;     /* how many symbols the stack has */
  size_t left;       /* how many upcoming tokens there are */
  size_t counter;    /* the recovery counter, 0 to 3 */
  size_t errors;     /* how many errors were reported */
} sulderko_place;

/* What ystep replies to command lines, from the start of a parse of the tokens by the grammar. */
unsigned int sulderko_session(const char *grammar, size_t grammar_len, const char *tokens,
                              size_t tokens_len, const char *commands, size_t commands_len,
                              char *out, size_t room, size_t *len);

/* The table of a grammar, as yacc writes it to PREFIX.tab, and its conflicts. */
unsigned int sulderko_table(const char *grammar, size_t grammar_len, char *out, size_t room,
                            size_t *len, sulderko_conflicts *conflicts);

/* The report on a grammar, as yacc -v writes it to PREFIX.output, and its conflicts. */
unsigned int sulderko_report(const char *grammar, size_t grammar_len, char *out, size_t room,
                             size_t *len, sulderko_conflicts *conflicts);

/* One of the arrays of the parser in C that ycc writes, by a number of sulderko_array, and the
   numbers by which they are read; docs/LIBRARY.md says how. There is no number in an array of
   another number. */
unsigned int sulderko_code(const char *grammar, size_t grammar_len, unsigned int array, size_t *out,
                           size_t room, size_t *len, sulderko_sizes *sizes);

/* The number of the symbol that each of the tokens names, as the table has it. The number at index
   i is that of the token with the place i + 1 in verdicts and faults. */
unsigned int sulderko_tokens(const char *grammar, size_t grammar_len, const char *tokens,
                             size_t tokens_len, size_t *out, size_t room, size_t *len);

/* Whether the tokens are a sentence of the grammar. */
unsigned int sulderko_judge(const char *grammar, size_t grammar_len, const char *tokens,
                            size_t tokens_len, sulderko_verdict *verdict);

/* The first fault of the grammar, or else of the tokens by it. Without a fault the status is
   SULDERKO_DONE, and *fault becomes 0 all over, as it does where memory ran out or there are too
   many item sets. */
unsigned int sulderko_fault(const char *grammar, size_t grammar_len, const char *tokens,
                            size_t tokens_len, sulderko_fault_info *fault);

/* Gives a handle a session: the start of a parse of the tokens by the grammar. A session that the
   handle had ends. With another status than SULDERKO_DONE the handle stays as it was. The texts
   aren't needed any longer. */
unsigned int sulderko_open(const char *grammar, size_t grammar_len, const char *tokens,
                           size_t tokens_len, sulderko_handle *handle);

/* Ends the session of a handle, where it has one, and gives its memory back. */
void sulderko_close(sulderko_handle *handle);

/* One step forward: *made becomes what it is. A refused one changes nothing, nor *made, as in the
   three calls below: SULDERKO_HALTED, SULDERKO_AT_LIMIT, SULDERKO_NO_MEMORY. */
unsigned int sulderko_step(sulderko_handle *handle, sulderko_move *made);

/* One step or edit back, to the whole configuration before it: *made becomes what is undone. It
   takes no memory. SULDERKO_AT_START where nothing stands. */
unsigned int sulderko_back(sulderko_handle *handle, sulderko_move *made);

/* Puts the token that these bytes spell, a name or a literal, before the upcoming tokens. Refused
   as a step is, or SULDERKO_BAD_TOKEN. */
unsigned int sulderko_insert(sulderko_handle *handle, const char *token, size_t token_len,
                             sulderko_move *made);

/* Takes out the first of the upcoming tokens. Refused as a step is, or SULDERKO_NO_TOKEN. */
unsigned int sulderko_drop(sulderko_handle *handle, sulderko_move *made);

/* Goes to a position: as many steps as it is above the one now, or as many undos as it is below.
   With another status than SULDERKO_DONE a step was refused, and those before it stand. */
unsigned int sulderko_to(sulderko_handle *handle, size_t position);

/* Tells where the session stands. */
unsigned int sulderko_state(sulderko_handle *handle, sulderko_place *place);

/* Which tokens could come next. There is a byte for each token of the grammar, and the one at index
   i, one of sulderko_outlook, is that of the token with the number i, as the table has it. A token
   is expected where, inserted now, it would be shifted after reductions alone; $end, number 0,
   where with no upcoming token the input would be accepted after reductions alone. That is tried,
   token by token, and the session stays as it is. error, number 1, is never expected, and none is
   where the parse is popping or has halted. */
unsigned int sulderko_expected(sulderko_handle *handle, unsigned char *out, size_t room,
                               size_t *len);

/* The text of the configuration, as ystep replies to `show`. */
unsigned int sulderko_show(sulderko_handle *handle, char *out, size_t room, size_t *len);

/* The text of the trees of the stack, as ystep replies to `tree`. */
unsigned int sulderko_tree(sulderko_handle *handle, char *out, size_t room, size_t *len);

/* The forms of an accepted parse without error steps, the last one first, as ystep replies to
   `unwind`; all steps and edits are undone then, whatever room there is. SULDERKO_NOT_ACCEPTED and
   SULDERKO_HAD_ERROR change nothing; with SULDERKO_NO_MEMORY some are undone. */
unsigned int sulderko_unwind(sulderko_handle *handle, char *out, size_t room, size_t *len);

#ifdef __cplusplus
}
#endif

#endif
