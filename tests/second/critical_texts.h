/* Critical texts: texts of an undamaged part, drafted so that a single altered
   byte brings them as near as can be to an opening or to another text (Request
   113). */
#ifndef SECOND_CRITICAL_TEXTS_H
#define SECOND_CRITICAL_TEXTS_H

#include "draft.h"

/* Each makes text i of the part a critical one and leaves the part undamaged.
   Returns the place in that text of the byte that is to be altered; 0 where the
   text cannot be one. */
typedef size_t critical_text(struct numbers *n, struct draft *draft, size_t i);

/* Payload that ends 16 16 16 10 and the check byte FD: with 02 in place of the
   FE an opening ends at the check byte. */
critical_text critical_check_fd;

/* The five control bytes in payload, often its last: the byte behind them. */
critical_text critical_control_bytes;

/* Status 1 is FD, by its bits without meaning: a byte beside it.  02 in byte 3
   makes `02 FD`, and behind the kind of an intensity part `10 02 FD`. */
critical_text critical_status_fd;

/* Payload that goes on as a start block does behind its kind, as far as its
   bytes are allowed there: the kind. */
critical_text critical_start_in_payload;

/* Data text 10 ends with what is a start text of NO ECHO but for its FD, and
   its check byte is right for both: the byte in place of that FD. */
critical_text critical_inner_start;

#endif
