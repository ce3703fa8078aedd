/* Request 111: the time as "the signed count of minutes from 1 January 2000,
   00:00, or invalid".  The two directions count days in two ways, so that each
   can be held against the other. */
#ifndef SECOND_MINUTES_H
#define SECOND_MINUTES_H

#include <stdbool.h>
#include <stdint.h>

enum { TIME_DIGITS = 12 }; /* YYYYMMDDhhmm, as numbers 0 to 9 */

/* True with the minute of these digits, or false, with *minute as it was, where
   one is above 9 or they are no Gregorian date, hour and minute. */
bool minute_of(const uint8_t digits[TIME_DIGITS], int64_t *minute);

/* A minute of years 0000 to 9999? */
bool is_minute(int64_t minute);

/* The digits of such a minute. */
void put_digits(int64_t minute, uint8_t digits[TIME_DIGITS]);

#endif
