/* Times at the limits of 01's rule, "a Gregorian date (years 0000 to 9999), hour
   00 to 23, minute 00 to 59", from both sides.  They are written out, valid or
   not, so that they do not hang on this model's own idea of a date. */
#ifndef SECOND_TIME_LIMITS_H
#define SECOND_TIME_LIMITS_H

#include <stdbool.h>
#include <stddef.h>

struct time_limit {
    const char *text; /* YYYY.MM.DD.hh.mm */
    bool valid;
};

/* The list has a beginning and no end: after the last comes the first. */
const struct time_limit *time_limit(size_t number);
size_t time_limits(void);

#endif
