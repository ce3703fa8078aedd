/* Hostile traffic: undamaged parts among damaged ones, noise and lures. */
#ifndef SECOND_HOSTILE_H
#define SECOND_HOSTILE_H

#include "bytes.h"
#include "draft.h"

/* At least `length` bytes, the same for the same seed.  A longer stream of a
   seed begins with its shorter ones. */
void generate(uint64_t seed, size_t length, struct bytes *stream);

/* The same of a stream that has these habits and not some of its own. */
void generate_with(uint64_t seed, const struct habits *habits, size_t length, struct bytes *stream);

#endif
