/* 01, "Services", of which this model has one: bytes left. */
#ifndef SECOND_SERVICES_H
#define SECOND_SERVICES_H

#include "receiver.h"

/* 01, "bytes left in the text under way", by Request 106: "Where the kind has
   been read and a text is under way, the number is from now on exactly the
   bytes that an undamaged text still has to come, the FF included.  Before the
   kind is read, and at place 0, it is 0."  The state came from the receiver
   here: refusal 2 cannot arise. */
size_t bytes_left(const struct receiver *r);

#endif
