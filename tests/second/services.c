#include "services.h"

/* A text is the control bytes, a block of its kind's length, and three bytes
   after it.  The place counts from FD on: the control bytes have come too. */
size_t bytes_left(const struct receiver *r)
{
    if (r->place == 0 || r->kind == 0)
        return 0;
    size_t whole = block_length(r->kind) + FRAME_BYTES;
    size_t come = CONTROL_BYTES + r->place;
    return whole - come;
}
