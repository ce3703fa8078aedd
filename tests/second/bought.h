/* Hostile traffic for receivers that have not all marks (Request 101), with
   the numbers that such receivers are made from. */
#ifndef SECOND_BOUGHT_H
#define SECOND_BOUGHT_H

#include "bytes.h"

/* Input of the program try_marks: how many numbers (one byte), the numbers
   (four bytes each, high byte first), and a stream of at least `length` bytes.
   Returns how many bytes stand before the stream. */
size_t generate_marks(uint64_t seed, size_t length, struct bytes *out);

#endif
