/* Traffic by Request 113: altered parts one after the other, whole ones and such
   as lie outside the request's limits among them. */
#ifndef SECOND_ALTERED_TRAFFIC_H
#define SECOND_ALTERED_TRAFFIC_H

#include "bytes.h"

#include <stdbool.h>
#include <stdint.h>

/* What a record is: to an altered part no complete may come; each other has
   complete at its last byte, and no other one. */
enum { WHOLE = 0, ALTERED = 1, TWICE = 2, TO_FD = 3 };

/* So many altered parts, and others behind many of them; the same for the same
   seed.  A record is its sort and how many of its bytes are altered (a byte
   each), its length (four bytes, high byte first), and the part's bytes. */
void generate_altered(uint64_t seed, size_t count, struct bytes *out);

/* Gives so many altered parts, and the others behind them, to this model's
   receiver, each alone to fresh ones with several marks.  Prints figures; says
   which part is answered wrongly, and returns whether none is. */
bool try_altered(uint64_t seed, size_t count);

#endif
