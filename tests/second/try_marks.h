/* What the program try_marks must print: receivers with several marks, all on
   one stream (Request 101). */
#ifndef SECOND_TRY_MARKS_H
#define SECOND_TRY_MARKS_H

#include "bytes.h"

#include <stdbool.h>

/* The input is one byte N, N numbers of four bytes, high byte first, and the
   stream.  False, with nothing printed, where it has not so many numbers. */
bool print_marks(const struct bytes *input);

#endif
