/* 01, "The writer": a whole part from part, header, modes and payload.  "32 also
   covers a minute outside years 0000 to 9999" (Request 111). */
#ifndef SECOND_WRITER_H
#define SECOND_WRITER_H

#include "texts.h"

enum { WRITTEN = 0, WRONG_PART = 31, WRONG_HEADER = 32, WRONG_PAYLOAD = 33, SHORT_OUTPUT = 34 };

struct writing {
    int part;
    const struct header *header; /* NO ECHO and mode in it are not looked at */
    const uint8_t *modes;        /* eight, 0 where there is no radar */
    const uint8_t *payload;
    size_t payload_length;
};

/* Returns WRITTEN and the length in *length, or a refusal of 01's table with
   the output unchanged and *length 0. */
int write_part(const struct writing *what, uint8_t *out, size_t room, size_t *length);

#endif
