/* Drafts: undamaged parts of every sort, as separate texts that can be
   damaged before they are sent. */
#ifndef SECOND_DRAFT_H
#define SECOND_DRAFT_H

#include "numbers.h"
#include "texts.h"

enum {
    TEXT_ROOM = LONGEST_TEXT + 64, /* room for a block that has grown too long */
    TEXTS_ROOM = 16,               /* 12 texts and a few doubled ones */
    FAVOURITES = 3
};

struct text {
    size_t length; /* the whole text, from the first 16 to the FF */
    uint8_t bytes[TEXT_ROOM];
};

struct draft {
    int part;
    bool no_echo;
    struct header header;
    uint8_t modes[RADARS];
    uint8_t payload[GRID_BYTES];
    size_t count;
    struct text texts[TEXTS_ROOM];
};

/* A stream's liking for a few picture codes makes texts of two parts go
   together now and then. */
struct habits {
    uint8_t favourites[FAVOURITES];
};

uint8_t *block_of(struct text *text);
size_t block_size(const struct text *text);

/* Makes the check byte right again after a field was changed. */
void mend_check(struct text *text);

void draft_part(struct numbers *n, const struct habits *habits, struct draft *draft);
void draft_quality(struct numbers *n, const struct habits *habits, struct draft *draft);

/* A part of this sort.  NO ECHO may be set in quality too, where it has no
   effect. */
void draft_sort(struct numbers *n, const struct habits *habits, int part, bool no_echo, struct draft *draft);

/* A second part of the same kind and picture code, often of the same radars. */
void draft_like(struct numbers *n, const struct habits *habits, const struct draft *model,
                struct draft *draft);

#endif
