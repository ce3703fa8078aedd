/* Request 101: "twenty marks, one for each picture code in 01's order, as one
   number with C0 at bit 0". */
#ifndef SECOND_MARKS_H
#define SECOND_MARKS_H

#include "texts.h"

#define ALL_MARKS 0xFFFFFu /* 1,048,575 */

/* Has this listed code its mark among these?  No other byte has one. */
bool is_marked(uint32_t marks, uint8_t picture);

/* The marks of a receiver asked for with this number: "a receiver asked for
   with such has no mark at all", which is any beyond the twentieth. */
uint32_t marks_given(uint32_t number);

/* "A call tells, in any state, how many of the twenty marks are set": in one
   that cannot arise too, where bits beyond the twentieth are no marks. */
unsigned marks_set(uint32_t marks);

#endif
