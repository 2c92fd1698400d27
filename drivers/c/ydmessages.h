/* Messages for errors, as `ydebug errors --messages FILE --table y.msg` writes them,
   for parsers of ydriver.h. C99. docs/FORMATS.md has the format. */
#ifndef YDMESSAGES_H
#define YDMESSAGES_H

#include "ydriver.h"

#ifdef __cplusplus
extern "C" {
#endif

/* Messages, in one block of memory. */
typedef struct yd_messages yd_messages;

/* Reads messages for the table with this digest (yd_digest). NULL where they are refused, or were
   made for another table; `fault`, unless it is NULL, then says why. */
yd_messages *yd_read_messages(const char *text, size_t length, unsigned long digest,
                              yd_fault *fault);
void yd_free_messages(yd_messages *messages);

/* What stands in the input for a token or an entry of the stack, with its length; NULL where it is to
   stand by what the messages call it, as "<=", or else by its name, the end as "end of input". */
typedef const char *(*yd_show)(void *context, int symbol, yd_span span, size_t *length);

/* A message, for the call of an error: writes it to a buffer of `size` bytes, cut if it is longer and
   with a zero byte at its end, and says how long it is. It is that of the state which detects the
   error; without one it is `unexpected X, expected Y or Z`, with what the messages call tokens, and
   where `messages` is NULL by their names. `show` may be NULL. YD_UNKNOWN where memory runs out. */
size_t yd_message(const yd_messages *messages, const yd_parser *parser, int token, yd_span span,
                  yd_show show, void *context, char *buffer, size_t size);

#ifdef __cplusplus
}
#endif

#endif
