/* Just outside the limits of Request 113: parts with altered bytes for which
   complete, at their last byte, is the true answer. */
#ifndef SECOND_OUTSIDE_LIMITS_H
#define SECOND_OUTSIDE_LIMITS_H

#include "altered.h"

/* Two bytes of one text altered, none to FD, so that another undamaged part has
   come.  The part has come as it was sent before. */
void alter_twice(struct numbers *n, struct transfer *c);

/* One byte of an intensity part's data text 10 altered to FD, so that what has
   come ends with an undamaged part of 80 bytes; now and then texts before that
   one have an altered byte too.  Drafts the part itself. */
void alter_to_fd(struct numbers *n, const struct habits *habits, struct transfer *c);

#endif
